package org.tabd.protocol;

import java.util.List;

/**
 * A permission on the system, or on a table.
 *
 * @param name one of {@link #SYSTEM} or of {@link #TABLE}
 * @param table the table, or null for the system
 */
public record Permission(String name, String table) {
    /** The permissions on the system, by their places in the protocol. */
    public static final List<String> SYSTEM = List.of(
            "GRANT", "CREATE_TABLE", "DROP_TABLE", "ALTER_TABLE", "CREATE_USER", "DROP_USER", "ALTER_USER", "SYSTEM");

    /** The permissions on a table, by their places in the protocol. */
    public static final List<String> TABLE = List.of("READ", "WRITE", "ALTER_TABLE", "GRANT", "DROP_TABLE");

    /**
     * Checks the name.
     *
     * @param name one of {@link #SYSTEM} or of {@link #TABLE}
     * @param table the table, or null for the system
     * @throws IllegalArgumentException if there is no such permission
     */
    public Permission {
        if (!(table == null ? SYSTEM : TABLE).contains(name)) {
            throw new IllegalArgumentException("no permission on " + (table == null ? "the system: " : "a table: ") + name);
        }
    }

    @Override
    public String toString() {
        return table == null ? name + " on the system" : name + " on table " + table;
    }
}
