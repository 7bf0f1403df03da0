package org.tabd.accumulo.core.client;

import java.io.Serial;
import org.tabd.accumulo.core.client.security.SecurityErrorCode;

/** A user isn't allowed what was asked. */
public class AccumuloSecurityException extends Exception {
    @Serial
    private static final long serialVersionUID = 1L;

    /** Who. */
    private final String user;
    /** Why not. */
    private final SecurityErrorCode errorCode;
    /** Of which table, or null. */
    private final String tableInfo;

    /**
     * Says who, and why not.
     *
     * @param user who
     * @param errorCode why not
     * @param tableInfo of which table, or null
     * @param cause the refusal, or null
     */
    public AccumuloSecurityException(String user, SecurityErrorCode errorCode, String tableInfo, Throwable cause) {
        super("Error " + errorCode + " for user " + user + (tableInfo == null ? "" : " on table " + tableInfo)
                + (cause == null ? "" : ": " + cause.getMessage()), cause);
        this.user = user;
        this.errorCode = errorCode;
        this.tableInfo = tableInfo;
    }

    /**
     * Says who, and why not.
     *
     * @param user who
     * @param errorCode why not
     */
    public AccumuloSecurityException(String user, SecurityErrorCode errorCode) {
        this(user, errorCode, null, null);
    }

    /**
     * Who isn't allowed.
     *
     * @return the name
     */
    public String getUser() {
        return user;
    }

    /**
     * Why not.
     *
     * @return the code
     */
    public SecurityErrorCode getSecurityErrorCode() {
        return errorCode;
    }

    /**
     * Of which table.
     *
     * @return its name, or null
     */
    public String getTableInfo() {
        return tableInfo;
    }
}
