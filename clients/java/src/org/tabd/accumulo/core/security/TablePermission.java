package org.tabd.accumulo.core.security;

/** What a user may do to a table. Those of bulk imports and of summaries can't be given: there are neither. */
public enum TablePermission {
    /** To scan it. */
    READ,
    /** To write to it. */
    WRITE,
    /** Isn't there. */
    BULK_IMPORT,
    /** To change its settings and splits. */
    ALTER_TABLE,
    /** To give permissions on it. */
    GRANT,
    /** To drop it. */
    DROP_TABLE,
    /** Isn't there. */
    GET_SUMMARIES
}
