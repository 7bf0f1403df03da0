package org.tabd.accumulo.core.client.admin;

/** What gives an update its time where the writer doesn't. */
public enum TimeType {
    /** A count that rises, which no server has. */
    LOGICAL,
    /** The clock, in milliseconds. */
    MILLIS
}
