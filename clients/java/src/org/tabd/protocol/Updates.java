package org.tabd.protocol;

import java.util.Arrays;

/** Updates of one row, as a write sends them. */
public final class Updates {
    /** Where they are written. */
    private final Frame frame;

    private int count;

    /**
     * None.
     *
     * @param capacity for how many bytes there is room at first
     */
    public Updates(int capacity) {
        frame = new Frame(capacity);
    }

    /**
     * A copy.
     *
     * @param other what is copied
     */
    public Updates(Updates other) {
        frame = new Frame(other.frame.length());
        frame.raw(other.frame.array(), 0, other.frame.length());
        count = other.count;
    }

    /**
     * Adds a put, whose parts are copied.
     *
     * @param family the family
     * @param qualifier the qualifier
     * @param label the label
     * @param timestamp the time, or null for the server's
     * @param value the value
     */
    public void put(byte[] family, byte[] qualifier, byte[] label, Long timestamp, byte[] value) {
        key(1, family, qualifier, label, timestamp);
        frame.field(value);
    }

    /**
     * Adds a marker, whose parts are copied: the column's puts up to its time are hidden.
     *
     * @param family the family
     * @param qualifier the qualifier
     * @param label the label
     * @param timestamp the time, or null for the server's
     */
    public void delete(byte[] family, byte[] qualifier, byte[] label, Long timestamp) {
        key(0, family, qualifier, label, timestamp);
    }

    private void key(int kind, byte[] family, byte[] qualifier, byte[] label, Long timestamp) {
        frame.u8(kind).field(family).field(qualifier).field(label).u8(timestamp == null ? 0 : 1);
        if (timestamp != null) {
            frame.i64(timestamp);
        }
        count++;
    }

    /**
     * How many there are.
     *
     * @return the count
     */
    public int count() {
        return count;
    }

    /**
     * Their bytes.
     *
     * @return the bytes, which aren't to be changed
     */
    public Frame frame() {
        return frame;
    }

    @Override
    public boolean equals(Object other) {
        return other instanceof Updates updates
                && Arrays.equals(frame.array(), 0, frame.length(), updates.frame.array(), 0, updates.frame.length());
    }

    @Override
    public int hashCode() {
        return Arrays.hashCode(frame.toArray());
    }
}
