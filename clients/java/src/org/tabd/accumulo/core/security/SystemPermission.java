package org.tabd.accumulo.core.security;

/** What a user may do to the system. Those of namespaces and of delegation tokens can't be given: there are neither. */
public enum SystemPermission {
    /** To give permissions on the system, which is root's alone. */
    GRANT,
    /** To make tables. */
    CREATE_TABLE,
    /** To drop any table. */
    DROP_TABLE,
    /** To change any table. */
    ALTER_TABLE,
    /** To make users. */
    CREATE_USER,
    /** To drop users. */
    DROP_USER,
    /** To give users authorizations. */
    ALTER_USER,
    /** To save, load, and rotate histories. */
    SYSTEM,
    /** Isn't there. */
    CREATE_NAMESPACE,
    /** Isn't there. */
    DROP_NAMESPACE,
    /** Isn't there. */
    ALTER_NAMESPACE,
    /** Isn't there. */
    OBTAIN_DELEGATION_TOKEN
}
