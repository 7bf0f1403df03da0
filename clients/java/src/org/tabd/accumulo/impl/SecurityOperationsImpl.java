package org.tabd.accumulo.impl;

import java.util.List;
import org.tabd.accumulo.core.client.AccumuloException;
import org.tabd.accumulo.core.client.AccumuloSecurityException;
import org.tabd.accumulo.core.client.admin.SecurityOperations;
import org.tabd.accumulo.core.client.security.tokens.PasswordToken;
import org.tabd.accumulo.core.security.Authorizations;
import org.tabd.accumulo.core.security.SystemPermission;
import org.tabd.accumulo.core.security.TablePermission;
import org.tabd.protocol.Permission;
import org.tabd.protocol.Request;

/** Operations on users over a {@link Link}. */
final class SecurityOperationsImpl implements SecurityOperations {
    private final Link link;

    SecurityOperationsImpl(Link link) {
        this.link = link;
    }

    private <T> T ask(String table, Request<T> request) throws AccumuloException, AccumuloSecurityException {
        return Faults.ask(link, table, request);
    }

    private static Permission of(SystemPermission permission) {
        demandThere(permission, Permission.SYSTEM);
        return new Permission(permission.name(), null);
    }

    private static Permission of(TablePermission permission, String table) {
        Request.name(table); // without a table it would be one on the system
        demandThere(permission, Permission.TABLE);
        return new Permission(permission.name(), table);
    }

    private static void demandThere(Enum<?> permission, List<String> all) {
        if (!all.contains(permission.name())) {
            throw new UnsupportedOperationException(permission + ": a server has no such permission");
        }
    }

    @Override
    public void createLocalUser(String user, PasswordToken password) throws AccumuloException, AccumuloSecurityException {
        if (password != null) {
            Notes.PASSWORDS.tell();
        }
        ask(null, Request.createUser(user));
    }

    @Override
    public void dropLocalUser(String user) throws AccumuloException, AccumuloSecurityException {
        ask(null, Request.dropUser(user));
    }

    @Override
    public void changeUserAuthorizations(String user, Authorizations authorizations)
            throws AccumuloException, AccumuloSecurityException {
        ask(null, Request.setAuthorizations(user, authorizations.getAuthorizations()));
    }

    @Override
    public void grantSystemPermission(String user, SystemPermission permission) throws AccumuloException, AccumuloSecurityException {
        ask(null, Request.grant(user, of(permission)));
    }

    @Override
    public void revokeSystemPermission(String user, SystemPermission permission) throws AccumuloException, AccumuloSecurityException {
        ask(null, Request.revoke(user, of(permission)));
    }

    @Override
    public void grantTablePermission(String user, String table, TablePermission permission)
            throws AccumuloException, AccumuloSecurityException {
        ask(table, Request.grant(user, of(permission, table)));
    }

    @Override
    public void revokeTablePermission(String user, String table, TablePermission permission)
            throws AccumuloException, AccumuloSecurityException {
        ask(table, Request.revoke(user, of(permission, table)));
    }

    @Override
    public boolean hasTablePermission(String user, String table, TablePermission permission)
            throws AccumuloException, AccumuloSecurityException {
        if (!user.equals(link.user())) {
            throw new UnsupportedOperationException("hasTablePermission: a server tells its asker alone, which is " + link.user());
        }
        return ask(table, Request.rights(table)).table().contains(of(permission, table).name());
    }
}
