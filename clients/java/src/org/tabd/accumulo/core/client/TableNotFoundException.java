package org.tabd.accumulo.core.client;

import java.io.Serial;

/** There is no such table. */
public class TableNotFoundException extends Exception {
    @Serial
    private static final long serialVersionUID = 1L;

    /** Which. */
    private final String tableName;

    /**
     * Says which.
     *
     * @param tableName its name
     * @param cause the refusal, or null
     */
    public TableNotFoundException(String tableName, Throwable cause) {
        super("Table " + tableName + " does not exist", cause);
        this.tableName = tableName;
    }

    /**
     * Which.
     *
     * @return its name
     */
    public String getTableName() {
        return tableName;
    }
}
