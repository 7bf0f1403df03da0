package org.tabd.protocol;

/** What a table may demand of each mutation. The number of one in the protocol is its place, from 1. */
public enum Constraint {
    /** Row, family, qualifier and label have at most 1,048,576 bytes together. */
    KEYSIZE,
    /** Row, family and qualifier are ASCII letters and digits. */
    ALPHANUM,
    /** The value of a put is a whole number. */
    NUMERIC,
    /** A label holds under the authorizations of who writes it. */
    VISIBILITY;

    /**
     * The number that a violation tells.
     *
     * @return 1 to 4
     */
    public int number() {
        return ordinal() + 1;
    }
}
