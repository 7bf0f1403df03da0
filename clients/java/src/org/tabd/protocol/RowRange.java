package org.tabd.protocol;

/**
 * Rows from one to another; null is no bound.
 *
 * @param low the first row
 * @param withLow whether it is in the range
 * @param high the last row
 * @param withHigh whether it is in the range
 */
public record RowRange(byte[] low, boolean withLow, byte[] high, boolean withHigh) {
    /** All rows. */
    public static final RowRange ALL = new RowRange(null, true, null, true);

    /** Each row as a shell spells it. */
    @Override
    public String toString() {
        return "RowRange[low=" + Words.of(low) + ", withLow=" + withLow + ", high=" + Words.of(high) + ", withHigh=" + withHigh + "]";
    }
}
