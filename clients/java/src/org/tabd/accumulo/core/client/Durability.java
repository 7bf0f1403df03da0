package org.tabd.accumulo.core.client;

/** When a write is safe. A server decides that for all writes, by its {@code --sync}, whatever a writer says. */
public enum Durability {
    /** As the server does. */
    DEFAULT,
    /** On the disk. */
    SYNC,
    /** Out of the server's hands. */
    FLUSH,
    /** In the server's log. */
    LOG,
    /** Nowhere. */
    NONE
}
