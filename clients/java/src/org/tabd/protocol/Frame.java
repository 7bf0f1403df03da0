package org.tabd.protocol;

import java.util.Arrays;
import java.util.Collection;

/** Bytes that grow: the fields of a frame, written one after the other, all numbers big-endian. */
public final class Frame {
    /** The most bytes of a frame, its length aside. */
    public static final int MAX_LENGTH = 8_388_608;

    private byte[] bytes;
    private int length;

    /**
     * An empty one.
     *
     * @param capacity for how many bytes there is room at first
     */
    public Frame(int capacity) {
        bytes = new byte[capacity];
    }

    /**
     * How many bytes were written.
     *
     * @return the count
     */
    public int length() {
        return length;
    }

    /**
     * What was written.
     *
     * @return a copy
     */
    public byte[] toArray() {
        return Arrays.copyOf(bytes, length);
    }

    /**
     * Takes back what was written behind a place; the room stays.
     *
     * @param at the place
     */
    public void cut(int at) {
        length = at;
    }

    /**
     * The array that holds what was written, which changes with the next write.
     *
     * @return the array itself
     */
    public byte[] array() {
        return bytes;
    }

    /**
     * Writes a byte.
     *
     * @param number the byte
     * @return this
     */
    public Frame u8(int number) {
        reserve(1);
        bytes[length++] = (byte) number;
        return this;
    }

    /**
     * Writes a number of four bytes.
     *
     * @param number the number
     * @return this
     */
    public Frame u32(long number) {
        reserve(4);
        put(length, (int) number);
        length += 4;
        return this;
    }

    /**
     * Writes a number of eight bytes.
     *
     * @param number the number
     * @return this
     */
    public Frame i64(long number) {
        reserve(8);
        put(length, (int) (number >>> 32));
        put(length + 4, (int) number);
        length += 8;
        return this;
    }

    /**
     * Writes a length and so many bytes.
     *
     * @param content the bytes
     * @return this
     */
    public Frame field(byte[] content) {
        return field(content, 0, content.length);
    }

    /**
     * Writes a length and so many bytes of an array.
     *
     * @param content the array
     * @param offset where they begin
     * @param count how many
     * @return this
     */
    public Frame field(byte[] content, int offset, int count) {
        return u32(count).raw(content, offset, count);
    }

    /**
     * Writes a count and so many fields.
     *
     * @param contents the fields
     * @return this
     */
    public Frame fields(Collection<byte[]> contents) {
        u32(contents.size());
        contents.forEach(this::field);
        return this;
    }

    /**
     * Writes bytes as they are.
     *
     * @param content an array that holds them
     * @param offset where they begin
     * @param count how many
     * @return this
     */
    public Frame raw(byte[] content, int offset, int count) {
        reserve(count);
        System.arraycopy(content, offset, bytes, length, count);
        length += count;
        return this;
    }

    /**
     * Puts the length of what is written behind a place into the four bytes at it.
     *
     * @param at the place
     * @return this
     */
    public Frame seal(int at) {
        put(at, length - at - 4);
        return this;
    }

    private void put(int at, int number) {
        bytes[at] = (byte) (number >>> 24);
        bytes[at + 1] = (byte) (number >>> 16);
        bytes[at + 2] = (byte) (number >>> 8);
        bytes[at + 3] = (byte) number;
    }

    private void reserve(int count) {
        if (count > bytes.length - length) {
            // (the sum of two lengths may be above the greatest int)
            long wanted = Math.max((long) length + count, Math.min(2L * bytes.length, Integer.MAX_VALUE - 8L));
            if (wanted > Integer.MAX_VALUE - 8L) {
                throw new OutOfMemoryError("over 2 GiB in one buffer");
            }
            bytes = Arrays.copyOf(bytes, (int) wanted);
        }
    }
}
