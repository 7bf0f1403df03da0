package org.tabd.accumulo.core.client;

import java.io.Serial;

/** There is such a table already. */
public class TableExistsException extends Exception {
    @Serial
    private static final long serialVersionUID = 1L;

    /** Which. */
    private final String tableName;

    /**
     * Says which.
     *
     * @param tableName its name
     * @param cause the refusal, or null
     */
    public TableExistsException(String tableName, Throwable cause) {
        super("Table " + tableName + " exists", cause);
        this.tableName = tableName;
    }

    /**
     * Which.
     *
     * @return its name
     */
    public String getTableName() {
        return tableName;
    }
}
