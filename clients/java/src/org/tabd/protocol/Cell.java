package org.tabd.protocol;

/**
 * A value with its key. The arrays belong to whoever gets it, and neighbours may share those that are equal.
 *
 * @param row the row
 * @param family the column family
 * @param qualifier the column qualifier
 * @param label who may see it
 * @param timestamp the time
 * @param value the value
 */
public record Cell(byte[] row, byte[] family, byte[] qualifier, byte[] label, long timestamp, byte[] value) {
    /** Each part as a shell spells it. */
    @Override
    public String toString() {
        return "Cell[row=" + Words.of(row) + ", family=" + Words.of(family) + ", qualifier=" + Words.of(qualifier) + ", label="
                + Words.of(label) + ", timestamp=" + timestamp + ", value=" + Words.of(value) + "]";
    }
}
