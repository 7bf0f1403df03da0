package org.tabd.accumulo.core.data;

import java.nio.ByteBuffer;

/** One put or delete of a {@link Mutation}. */
public final class ColumnUpdate {
    private final boolean deleted;
    private final byte[] family;
    private final byte[] qualifier;
    private final byte[] visibility;
    private final boolean timed;
    private final long timestamp;
    private final byte[] value;

    private ColumnUpdate(ByteBuffer bytes) {
        deleted = bytes.get() == 0;
        family = field(bytes);
        qualifier = field(bytes);
        visibility = field(bytes);
        timed = bytes.get() == 1;
        timestamp = timed ? bytes.getLong() : 0;
        value = deleted ? Bytes.NONE : field(bytes);
    }

    /** The next update, as mutations keep them. */
    static ColumnUpdate read(ByteBuffer bytes) {
        return new ColumnUpdate(bytes);
    }

    private static byte[] field(ByteBuffer bytes) {
        byte[] found = new byte[bytes.getInt()];
        bytes.get(found);
        return found;
    }

    /**
     * The family.
     *
     * @return the bytes
     */
    public byte[] getColumnFamily() {
        return family;
    }

    /**
     * The qualifier.
     *
     * @return the bytes
     */
    public byte[] getColumnQualifier() {
        return qualifier;
    }

    /**
     * The label.
     *
     * @return the bytes
     */
    public byte[] getColumnVisibility() {
        return visibility;
    }

    /**
     * Whether the writer gave a time.
     *
     * @return false where the server gives it
     */
    public boolean hasTimestamp() {
        return timed;
    }

    /**
     * The time.
     *
     * @return the timestamp, or 0 where the server gives it
     */
    public long getTimestamp() {
        return timestamp;
    }

    /**
     * Whether it is a delete.
     *
     * @return whether it is
     */
    public boolean isDeleted() {
        return deleted;
    }

    /**
     * The value.
     *
     * @return the bytes; none for a delete
     */
    public byte[] getValue() {
        return value;
    }

    @Override
    public String toString() {
        StringBuilder text = new StringBuilder();
        Bytes.show(text, family).append(':');
        Bytes.show(text, qualifier).append(' ').append(timed ? timestamp : "-").append(" [");
        Bytes.show(text, visibility).append("] ");
        return Bytes.show(text, value).append(' ').append(deleted).toString();
    }
}
