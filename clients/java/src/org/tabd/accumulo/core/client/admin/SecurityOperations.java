package org.tabd.accumulo.core.client.admin;

import java.util.Set;
import org.tabd.accumulo.core.client.AccumuloException;
import org.tabd.accumulo.core.client.AccumuloSecurityException;
import org.tabd.accumulo.core.client.security.tokens.AuthenticationToken;
import org.tabd.accumulo.core.client.security.tokens.PasswordToken;
import org.tabd.accumulo.core.security.Authorizations;
import org.tabd.accumulo.core.security.SystemPermission;
import org.tabd.accumulo.core.security.TablePermission;

/**
 * What is asked of users. Many threads may use it at once.
 *
 * <p>A user's name is 1 to 128 of {@code a-z A-Z 0-9 _ - .}; any other one is an {@link IllegalArgumentException}.
 */
public interface SecurityOperations {
    /**
     * Makes a user without rights and authorizations.
     *
     * @param principal the name
     * @param password ignored: a server asks for none. The first one is told of on standard error
     * @throws AccumuloException if the server can't be asked
     * @throws AccumuloSecurityException if the user isn't allowed to, or there is such a user already
     */
    void createLocalUser(String principal, PasswordToken password) throws AccumuloException, AccumuloSecurityException;

    /**
     * Drops a user, and what the user may do.
     *
     * @param principal the name
     * @throws AccumuloException if the server can't be asked
     * @throws AccumuloSecurityException if the user isn't allowed to, or there is no such user
     */
    void dropLocalUser(String principal) throws AccumuloException, AccumuloSecurityException;

    /**
     * Gives a user authorizations in place of those held.
     *
     * @param principal the name
     * @param authorizations the authorizations
     * @throws AccumuloException if the server can't be asked
     * @throws AccumuloSecurityException if the user isn't allowed to, or there is no such user
     */
    void changeUserAuthorizations(String principal, Authorizations authorizations) throws AccumuloException, AccumuloSecurityException;

    /**
     * Gives a permission on the system.
     *
     * @param principal to whom
     * @param permission which
     * @throws AccumuloException if the server can't be asked
     * @throws AccumuloSecurityException if the user isn't allowed to, or there is no such user
     */
    void grantSystemPermission(String principal, SystemPermission permission) throws AccumuloException, AccumuloSecurityException;

    /**
     * Takes a permission on the system.
     *
     * @param principal from whom
     * @param permission which
     * @throws AccumuloException if the server can't be asked
     * @throws AccumuloSecurityException if the user isn't allowed to, or there is no such user
     */
    void revokeSystemPermission(String principal, SystemPermission permission) throws AccumuloException, AccumuloSecurityException;

    /**
     * Gives a permission on a table.
     *
     * @param principal to whom
     * @param table on which table
     * @param permission which
     * @throws AccumuloException if the server can't be asked
     * @throws AccumuloSecurityException if the user isn't allowed to, or there is no such user or table
     */
    void grantTablePermission(String principal, String table, TablePermission permission)
            throws AccumuloException, AccumuloSecurityException;

    /**
     * Takes a permission on a table.
     *
     * @param principal from whom
     * @param table on which table
     * @param permission which
     * @throws AccumuloException if the server can't be asked
     * @throws AccumuloSecurityException if the user isn't allowed to, or there is no such user or table
     */
    void revokeTablePermission(String principal, String table, TablePermission permission)
            throws AccumuloException, AccumuloSecurityException;

    /**
     * Whether the client's own user has a permission on a table.
     *
     * @param principal the client's own user
     * @param table the table
     * @param permission which
     * @return whether it is so
     * @throws AccumuloException if the server can't be asked
     * @throws AccumuloSecurityException if the user isn't allowed to, or there is no such table
     * @throws UnsupportedOperationException for anybody else: no request tells it
     */
    boolean hasTablePermission(String principal, String table, TablePermission permission)
            throws AccumuloException, AccumuloSecurityException;

    /**
     * Isn't there: a server tells permissions with those on a table alone; see Request.rights.
     *
     * @param principal isn't looked at
     * @param perm isn't looked at
     * @return never
     * @throws UnsupportedOperationException always
     */
    default boolean hasSystemPermission(String principal, SystemPermission perm) {
        throw new UnsupportedOperationException(
                "hasSystemPermission: a server tells permissions with those on a table alone; see Request.rights");
    }

    /**
     * Isn't there: a server tells authorizations with the rights on a table alone; a scanner that is made without any has all.
     *
     * @param principal isn't looked at
     * @return never
     * @throws UnsupportedOperationException always
     */
    default Authorizations getUserAuthorizations(String principal) {
        throw new UnsupportedOperationException(
                "getUserAuthorizations: a server tells authorizations with the rights on a table alone; a scanner "
                        + "that is made without any has all");
    }

    /**
     * Isn't there: no request lists users.
     *
     * @return never
     * @throws UnsupportedOperationException always
     */
    default Set<String> listLocalUsers() {
        throw new UnsupportedOperationException("listLocalUsers: no request lists users");
    }

    /**
     * Isn't there: a server asks for no passwords.
     *
     * @param principal isn't looked at
     * @param token isn't looked at
     * @return never
     * @throws UnsupportedOperationException always
     */
    default boolean authenticateUser(String principal, AuthenticationToken token) {
        throw new UnsupportedOperationException("authenticateUser: a server asks for no passwords");
    }

    /**
     * Isn't there: a server asks for no passwords.
     *
     * @param principal isn't looked at
     * @param token isn't looked at
     * @throws UnsupportedOperationException always
     */
    default void changeLocalUserPassword(String principal, PasswordToken token) {
        throw new UnsupportedOperationException("changeLocalUserPassword: a server asks for no passwords");
    }
}
