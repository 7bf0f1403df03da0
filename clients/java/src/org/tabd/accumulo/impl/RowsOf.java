package org.tabd.accumulo.impl;

import java.util.Arrays;
import org.tabd.accumulo.core.data.Key;
import org.tabd.accumulo.core.data.PartialKey;
import org.tabd.accumulo.core.data.Range;
import org.tabd.protocol.Column;
import org.tabd.protocol.RowRange;

/**
 * What is asked of a server for a range of keys: rows, since a server knows no other ranges, and the one column that its keys
 * have, if it is so.
 *
 * @param rows all rows of which keys are in the range
 * @param exact whether all keys of these rows are in it; if not, the client leaves out the others
 * @param column a column that all its keys have, or null
 */
record RowsOf(RowRange rows, boolean exact, Column column) {
    static RowsOf range(Range range) {
        Key start = range.getStartKey();
        Key end = range.getEndKey();
        // a key without columns and with the greatest time lies before all others of its row
        boolean wholeStart = start == null || isBeginning(start) && range.isStartKeyInclusive();
        boolean wholeEnd = end == null || isBeginning(end) && !range.isEndKeyInclusive();
        byte[] low = start == null ? null : row(start);
        byte[] high = end == null ? null : row(end);
        boolean withHigh = end != null && !wholeEnd;
        if (wholeEnd && high != null && high.length > 0 && high[high.length - 1] == 0) {
            // what is before the row with a zero behind it is up to that row
            high = Arrays.copyOf(high, high.length - 1);
            withHigh = true;
        }
        if (low != null && high != null && Arrays.compareUnsigned(low, high) >= (withHigh ? 1 : 0)) {
            // it has no key, but whether a scan would be refused is to be told all the same
            return new RowsOf(new RowRange(low, true, low, true), false, null);
        }
        return new RowsOf(new RowRange(low, true, high, withHigh), wholeStart && wholeEnd, column(range));
    }

    /** Whether it is of one row. */
    boolean isOneRow() {
        return rows.low() != null && rows.withHigh() && Arrays.equals(rows.low(), rows.high());
    }

    private static byte[] row(Key key) {
        return key.getRowData().toArray();
    }

    private static boolean isBeginning(Key key) {
        return key.getLength() == key.getRowData().length() && key.getTimestamp() == Long.MAX_VALUE && !key.isDeleted();
    }

    /** The column that all keys of a range have, or null. */
    private static Column column(Range range) {
        Key start = range.getStartKey();
        Key end = range.getEndKey();
        if (start == null || end == null || !start.equals(end, PartialKey.ROW)) {
            return null;
        }
        byte[] family = start.getColumnFamilyData().toArray();
        if (start.equals(end, PartialKey.ROW_COLFAM)) {
            boolean one = start.equals(end, PartialKey.ROW_COLFAM_COLQUAL) || endsWith(range, PartialKey.ROW_COLFAM_COLQUAL);
            return new Column(family, one ? start.getColumnQualifierData().toArray() : null);
        }
        return endsWith(range, PartialKey.ROW_COLFAM) ? new Column(family, null) : null;
    }

    /** Whether a range ends before the first key behind all that share parts with its first one. */
    private static boolean endsWith(Range range, PartialKey part) {
        return !range.isEndKeyInclusive() && range.getStartKey().followingKey(part).equals(range.getEndKey());
    }
}
