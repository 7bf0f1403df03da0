package org.tabd.accumulo.impl;

import java.io.IOException;
import java.util.Optional;
import org.tabd.accumulo.core.client.AccumuloException;
import org.tabd.accumulo.core.client.AccumuloSecurityException;
import org.tabd.accumulo.core.client.TableNotFoundException;
import org.tabd.accumulo.core.client.TimedOutException;
import org.tabd.accumulo.core.client.security.SecurityErrorCode;
import org.tabd.protocol.Refusal;
import org.tabd.protocol.RefusedException;
import org.tabd.protocol.Request;
import org.tabd.protocol.ServerTimeoutException;

/** Refusals and faults of connections as the exceptions that Accumulo has for them. */
final class Faults {
    private Faults() {}

    /** The code of a refusal that says what a user isn't allowed. */
    static Optional<SecurityErrorCode> code(Refusal refusal) {
        if (refusal instanceof Refusal.UnknownUser) {
            return Optional.of(SecurityErrorCode.BAD_CREDENTIALS);
        } else if (refusal instanceof Refusal.PermissionDenied || refusal instanceof Refusal.RootFixed) {
            return Optional.of(SecurityErrorCode.PERMISSION_DENIED);
        } else if (refusal instanceof Refusal.BadAuthorizations) {
            return Optional.of(SecurityErrorCode.BAD_AUTHORIZATIONS);
        } else if (refusal instanceof Refusal.UserExists) {
            return Optional.of(SecurityErrorCode.USER_EXISTS);
        } else if (refusal instanceof Refusal.NoUser) {
            return Optional.of(SecurityErrorCode.USER_DOESNT_EXIST);
        } else if (refusal instanceof Refusal.GrantInvalid) {
            return Optional.of(SecurityErrorCode.GRANT_INVALID);
        } else if (refusal instanceof Refusal.NoTable) {
            return Optional.of(SecurityErrorCode.TABLE_DOESNT_EXIST);
        }
        return Optional.empty();
    }

    /** Asks what isn't of one table: that there is none is a code like others. */
    static <T> T ask(Link link, String table, Request<T> request) throws AccumuloException, AccumuloSecurityException {
        try {
            return link.ask(request);
        } catch (RefusedException refused) {
            Optional<SecurityErrorCode> code = code(refused.refusal());
            if (code.isPresent()) {
                throw new AccumuloSecurityException(link.user(), code.get(), table, refused);
            }
            throw new AccumuloException(refused);
        } catch (IOException fault) {
            throw new AccumuloException(fault);
        }
    }

    /** Asks what is of a table. */
    static <T> T askOfTable(Link link, String table, Request<T> request)
            throws AccumuloException, AccumuloSecurityException, TableNotFoundException {
        try {
            return ask(link, table, request);
        } catch (AccumuloSecurityException fault) {
            if (fault.getSecurityErrorCode() == SecurityErrorCode.TABLE_DOESNT_EXIST) {
                throw new TableNotFoundException(table, fault.getCause());
            }
            throw fault;
        }
    }

    /** What an iterator throws where its scan is refused. */
    static RuntimeException ofScan(String user, String table, RefusedException refused) {
        if (refused.refusal() instanceof Refusal.NoTable) {
            return new RuntimeException(new TableNotFoundException(table, refused));
        }
        return new RuntimeException(code(refused.refusal())
                .<Exception>map(code -> new AccumuloSecurityException(user, code, table, refused))
                .orElseGet(() -> new AccumuloException(refused)));
    }

    /** What an iterator throws where its connection fails. */
    static RuntimeException ofScan(IOException fault) {
        if (fault instanceof ServerTimeoutException) {
            return new TimedOutException(fault.getMessage(), fault);
        }
        return new RuntimeException(new AccumuloException(fault));
    }
}
