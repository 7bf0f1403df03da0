package org.tabd.accumulo.core.data;

import java.util.ArrayList;
import java.util.Arrays;
import java.util.Collection;
import java.util.List;
import java.util.Objects;
import org.tabd.hadoop.io.Text;

/** Keys from one to another; a bound that is null isn't there. */
public class Range implements Comparable<Range> {
    private final Key start;
    private final boolean startInclusive;
    private final Key stop;
    private final boolean stopInclusive;

    /** All keys. */
    public Range() {
        this((Key) null, true, (Key) null, true);
    }

    /**
     * Keys from one to another.
     *
     * @param startKey the first, or null
     * @param startKeyInclusive whether it is in the range
     * @param endKey the last, or null
     * @param endKeyInclusive whether it is in the range
     * @throws IllegalArgumentException if the last is before the first
     */
    public Range(Key startKey, boolean startKeyInclusive, Key endKey, boolean endKeyInclusive) {
        start = startKey;
        startInclusive = startKeyInclusive;
        stop = endKey;
        stopInclusive = endKeyInclusive;
        if (startKey != null && endKey != null && beforeStartKey(endKey)) {
            throw new IllegalArgumentException("Start key must be less than end key in range (" + startKey + ", " + endKey + ")");
        }
    }

    /**
     * Keys from one to another, with both.
     *
     * @param startKey the first, or null
     * @param endKey the last, or null
     * @throws IllegalArgumentException if the last is before the first
     */
    public Range(Key startKey, Key endKey) {
        this(startKey, true, endKey, true);
    }

    /**
     * A copy of a range.
     *
     * @param other another range
     */
    public Range(Range other) {
        this(other.start, other.startInclusive, other.stop, other.stopInclusive);
    }

    private static Key startKey(Key row, boolean inclusive) {
        return row == null || inclusive ? row : row.followingKey(PartialKey.ROW);
    }

    private static Key endKey(Key row, boolean inclusive) {
        return row == null || !inclusive ? row : row.followingKey(PartialKey.ROW);
    }

    private static Key key(Text row) {
        return row == null ? null : new Key(row);
    }

    private static Key key(CharSequence row) {
        return row == null ? null : new Key(row);
    }

    /**
     * One row.
     *
     * @param row the row, or null for all
     */
    public Range(Text row) {
        this(row, true, row, true);
    }

    /**
     * Rows from one to another, with both.
     *
     * @param startRow the first, or null
     * @param endRow the last, or null
     * @throws IllegalArgumentException if the last is before the first
     */
    public Range(Text startRow, Text endRow) {
        this(startRow, true, endRow, true);
    }

    /**
     * Rows from one to another.
     *
     * @param startRow the first, or null
     * @param startRowInclusive whether it is in the range
     * @param endRow the last, or null
     * @param endRowInclusive whether it is in the range
     * @throws IllegalArgumentException if the last is before the first
     */
    public Range(Text startRow, boolean startRowInclusive, Text endRow, boolean endRowInclusive) {
        this(startKey(key(startRow), startRowInclusive), true, endKey(key(endRow), endRowInclusive), false);
    }

    /**
     * One row.
     *
     * @param row the row, or null for all
     */
    public Range(CharSequence row) {
        this(row, true, row, true);
    }

    /**
     * Rows from one to another, with both.
     *
     * @param startRow the first, or null
     * @param endRow the last, or null
     * @throws IllegalArgumentException if the last is before the first
     */
    public Range(CharSequence startRow, CharSequence endRow) {
        this(startRow, true, endRow, true);
    }

    /**
     * Rows from one to another.
     *
     * @param startRow the first, or null
     * @param startRowInclusive whether it is in the range
     * @param endRow the last, or null
     * @param endRowInclusive whether it is in the range
     * @throws IllegalArgumentException if the last is before the first
     */
    public Range(CharSequence startRow, boolean startRowInclusive, CharSequence endRow, boolean endRowInclusive) {
        this(startKey(key(startRow), startRowInclusive), true, endKey(key(endRow), endRowInclusive), false);
    }

    /**
     * The first key.
     *
     * @return the key, or null
     */
    public Key getStartKey() {
        return start;
    }

    /**
     * Whether the first key is in the range.
     *
     * @return whether it is
     */
    public boolean isStartKeyInclusive() {
        return startInclusive;
    }

    /**
     * The last key.
     *
     * @return the key, or null
     */
    public Key getEndKey() {
        return stop;
    }

    /**
     * Whether the last key is in the range.
     *
     * @return whether it is
     */
    public boolean isEndKeyInclusive() {
        return stopInclusive;
    }

    /**
     * Whether it has no first key.
     *
     * @return whether it begins before all keys
     */
    public boolean isInfiniteStartKey() {
        return start == null;
    }

    /**
     * Whether it has no last key.
     *
     * @return whether it ends behind all keys
     */
    public boolean isInfiniteStopKey() {
        return stop == null;
    }

    /**
     * Whether a key lies before the range.
     *
     * @param key the key
     * @return whether it does
     */
    public boolean beforeStartKey(Key key) {
        return start != null && key.compareTo(start) < (startInclusive ? 0 : 1);
    }

    /**
     * Whether a key lies behind the range.
     *
     * @param key the key
     * @return whether it does
     */
    public boolean afterEndKey(Key key) {
        return stop != null && key.compareTo(stop) > (stopInclusive ? 0 : -1);
    }

    /**
     * Whether a key lies in the range.
     *
     * @param key the key
     * @return whether it does
     */
    public boolean contains(Key key) {
        return !beforeStartKey(key) && !afterEndKey(key);
    }

    /**
     * What it has in common with another one.
     *
     * @param other the other one
     * @return the common range
     * @throws IllegalArgumentException if they have nothing in common
     */
    public Range clip(Range other) {
        return clip(other, false);
    }

    /**
     * What it has in common with another one.
     *
     * @param other the other one
     * @param returnNullIfDisjoint whether null is given where that is nothing
     * @return the common range
     * @throws IllegalArgumentException if they have nothing in common, and null isn't to be given
     */
    public Range clip(Range other, boolean returnNullIfDisjoint) {
        Range later = compareStarts(other) >= 0 ? this : other;
        Range earlier = compareStops(other) <= 0 ? this : other;
        boolean disjoint = later.start != null && earlier.stop != null
                && later.start.compareTo(earlier.stop) > (later.startInclusive && earlier.stopInclusive ? 0 : -1);
        if (!disjoint) {
            return new Range(later.start, later.startInclusive, earlier.stop, earlier.stopInclusive);
        }
        if (returnNullIfDisjoint) {
            return null;
        }
        throw new IllegalArgumentException("Range " + other + " does not overlap " + this);
    }

    private int compareStarts(Range other) {
        if (start == null || other.start == null) {
            return Boolean.compare(start != null, other.start != null);
        }
        int found = start.compareTo(other.start);
        return found != 0 ? found : Boolean.compare(other.startInclusive, startInclusive);
    }

    private int compareStops(Range other) {
        if (stop == null || other.stop == null) {
            return Boolean.compare(stop == null, other.stop == null);
        }
        int found = stop.compareTo(other.stop);
        return found != 0 ? found : Boolean.compare(stopInclusive, other.stopInclusive);
    }

    /**
     * Rising ranges that have the same keys, and don't overlap.
     *
     * @param ranges the ranges
     * @return the merged ones
     */
    public static List<Range> mergeOverlapping(Collection<Range> ranges) {
        List<Range> merged = new ArrayList<>(ranges.size());
        for (Range next : ranges.stream().sorted().toList()) {
            Range last = merged.isEmpty() ? null : merged.get(merged.size() - 1);
            if (last != null && last.meets(next)) {
                Range end = last.compareStops(next) >= 0 ? last : next;
                merged.set(merged.size() - 1, new Range(last.start, last.startInclusive, end.stop, end.stopInclusive));
            } else {
                merged.add(next);
            }
        }
        return merged;
    }

    /** Whether there is no key between it and one that begins at or behind its beginning. */
    private boolean meets(Range next) {
        if (stop == null || next.start == null) {
            return true;
        }
        int found = next.start.compareTo(stop);
        return found < 0 || found == 0 && (stopInclusive || next.startInclusive);
    }

    /** Compares the beginnings, and where they are equal the ends: a longer range comes first. */
    @Override
    public int compareTo(Range other) {
        int found = compareStarts(other);
        return found != 0 ? found : other.compareStops(this);
    }

    @Override
    public boolean equals(Object other) {
        return other instanceof Range range && compareTo(range) == 0;
    }

    @Override
    public int hashCode() {
        return Objects.hash(start, start != null && startInclusive, stop, stop != null && stopInclusive);
    }

    /** The range as {@code [first,last)}. */
    @Override
    public String toString() {
        return (startInclusive && start != null ? "[" : "(") + (start == null ? "-inf" : start) + ","
                + (stop == null ? "+inf" : stop) + (stopInclusive && stop != null ? "]" : ")");
    }

    /** All keys that have these parts of a key. */
    private static Range exact(Key key, PartialKey part) {
        return new Range(key, true, key.followingKey(part), false);
    }

    /**
     * All keys of these parts.
     *
     * @param row the row
     * @return the range
     */
    public static Range exact(Text row) {
        return exact(new Key(row), PartialKey.ROW);
    }

    /**
     * All keys of these parts.
     *
     * @param row the row
     * @param cf the family
     * @return the range
     */
    public static Range exact(Text row, Text cf) {
        return exact(new Key(row, cf), PartialKey.ROW_COLFAM);
    }

    /**
     * All keys of these parts.
     *
     * @param row the row
     * @param cf the family
     * @param cq the qualifier
     * @return the range
     */
    public static Range exact(Text row, Text cf, Text cq) {
        return exact(new Key(row, cf, cq), PartialKey.ROW_COLFAM_COLQUAL);
    }

    /**
     * All keys of these parts.
     *
     * @param row the row
     * @param cf the family
     * @param cq the qualifier
     * @param cv the label
     * @return the range
     */
    public static Range exact(Text row, Text cf, Text cq, Text cv) {
        return exact(new Key(row, cf, cq, cv), PartialKey.ROW_COLFAM_COLQUAL_COLVIS);
    }

    /**
     * All keys of these parts.
     *
     * @param row the row
     * @param cf the family
     * @param cq the qualifier
     * @param cv the label
     * @param ts the time
     * @return the range
     */
    public static Range exact(Text row, Text cf, Text cq, Text cv, long ts) {
        return exact(new Key(row, cf, cq, cv, ts), PartialKey.ROW_COLFAM_COLQUAL_COLVIS_TIME);
    }

    /**
     * All keys of these parts.
     *
     * @param row the row
     * @return the range
     */
    public static Range exact(CharSequence row) {
        return exact(new Key(row), PartialKey.ROW);
    }

    /**
     * All keys of these parts.
     *
     * @param row the row
     * @param cf the family
     * @return the range
     */
    public static Range exact(CharSequence row, CharSequence cf) {
        return exact(new Key(row, cf), PartialKey.ROW_COLFAM);
    }

    /**
     * All keys of these parts.
     *
     * @param row the row
     * @param cf the family
     * @param cq the qualifier
     * @return the range
     */
    public static Range exact(CharSequence row, CharSequence cf, CharSequence cq) {
        return exact(new Key(row, cf, cq), PartialKey.ROW_COLFAM_COLQUAL);
    }

    /**
     * All keys of these parts.
     *
     * @param row the row
     * @param cf the family
     * @param cq the qualifier
     * @param cv the label
     * @return the range
     */
    public static Range exact(CharSequence row, CharSequence cf, CharSequence cq, CharSequence cv) {
        return exact(new Key(row, cf, cq, cv), PartialKey.ROW_COLFAM_COLQUAL_COLVIS);
    }

    /**
     * All keys of these parts.
     *
     * @param row the row
     * @param cf the family
     * @param cq the qualifier
     * @param cv the label
     * @param ts the time
     * @return the range
     */
    public static Range exact(CharSequence row, CharSequence cf, CharSequence cq, CharSequence cv, long ts) {
        return exact(new Key(row, cf, cq, cv, ts), PartialKey.ROW_COLFAM_COLQUAL_COLVIS_TIME);
    }

    /**
     * All keys of these parts, of which the last one may go on.
     *
     * @param rowPrefix how the row begins
     * @return the range
     */
    public static Range prefix(Text rowPrefix) {
        Text following = followingPrefix(rowPrefix);
        Key end = following == null ? null : new Key(following);
        return new Range(new Key(rowPrefix), true, end, false);
    }

    /**
     * All keys of these parts, of which the last one may go on.
     *
     * @param row the row
     * @param cfPrefix how the family begins
     * @return the range
     */
    public static Range prefix(Text row, Text cfPrefix) {
        Text following = followingPrefix(cfPrefix);
        Key end = following == null ? new Key(row).followingKey(PartialKey.ROW) : new Key(row, following);
        return new Range(new Key(row, cfPrefix), true, end, false);
    }

    /**
     * All keys of these parts, of which the last one may go on.
     *
     * @param row the row
     * @param cf the family
     * @param cqPrefix how the qualifier begins
     * @return the range
     */
    public static Range prefix(Text row, Text cf, Text cqPrefix) {
        Text following = followingPrefix(cqPrefix);
        Key end = following == null ? new Key(row, cf).followingKey(PartialKey.ROW_COLFAM) : new Key(row, cf, following);
        return new Range(new Key(row, cf, cqPrefix), true, end, false);
    }

    /**
     * All keys of these parts, of which the last one may go on.
     *
     * @param row the row
     * @param cf the family
     * @param cq the qualifier
     * @param cvPrefix how the label begins
     * @return the range
     */
    public static Range prefix(Text row, Text cf, Text cq, Text cvPrefix) {
        Text following = followingPrefix(cvPrefix);
        Key end = following == null ? new Key(row, cf, cq).followingKey(PartialKey.ROW_COLFAM_COLQUAL) : new Key(row, cf, cq, following);
        return new Range(new Key(row, cf, cq, cvPrefix), true, end, false);
    }

    /**
     * All keys of these parts, of which the last one may go on.
     *
     * @param rowPrefix how the row begins
     * @return the range
     */
    public static Range prefix(CharSequence rowPrefix) {
        return prefix(new Text(rowPrefix.toString()));
    }

    /**
     * All keys of these parts, of which the last one may go on.
     *
     * @param row the row
     * @param cfPrefix how the family begins
     * @return the range
     */
    public static Range prefix(CharSequence row, CharSequence cfPrefix) {
        return prefix(new Text(row.toString()), new Text(cfPrefix.toString()));
    }

    /**
     * All keys of these parts, of which the last one may go on.
     *
     * @param row the row
     * @param cf the family
     * @param cqPrefix how the qualifier begins
     * @return the range
     */
    public static Range prefix(CharSequence row, CharSequence cf, CharSequence cqPrefix) {
        return prefix(new Text(row.toString()), new Text(cf.toString()), new Text(cqPrefix.toString()));
    }

    /**
     * All keys of these parts, of which the last one may go on.
     *
     * @param row the row
     * @param cf the family
     * @param cq the qualifier
     * @param cvPrefix how the label begins
     * @return the range
     */
    public static Range prefix(CharSequence row, CharSequence cf, CharSequence cq, CharSequence cvPrefix) {
        return prefix(new Text(row.toString()), new Text(cf.toString()), new Text(cq.toString()), new Text(cvPrefix.toString()));
    }

    /**
     * The least text above all that begin with a prefix.
     *
     * @param prefix the prefix
     * @return the text, or null if there is none, as the prefix is empty or of bytes 0xff alone
     */
    public static Text followingPrefix(Text prefix) {
        byte[] bytes = prefix.copyBytes();
        int length = bytes.length;
        while (length > 0 && bytes[length - 1] == (byte) 0xff) {
            length--;
        }
        if (length == 0) {
            return null;
        }
        bytes[length - 1]++;
        return new Text(Arrays.copyOf(bytes, length));
    }
}
