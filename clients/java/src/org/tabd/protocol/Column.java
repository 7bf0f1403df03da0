package org.tabd.protocol;

/**
 * A column that a scan shows.
 *
 * @param family the family
 * @param qualifier the qualifier, or null for all of the family
 */
public record Column(byte[] family, byte[] qualifier) {
    /** Each part as a shell spells it. */
    @Override
    public String toString() {
        return "Column[family=" + Words.of(family) + ", qualifier=" + Words.of(qualifier) + "]";
    }
}
