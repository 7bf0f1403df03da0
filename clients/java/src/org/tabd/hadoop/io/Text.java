package org.tabd.hadoop.io;

import java.nio.charset.StandardCharsets;
import java.util.Arrays;

/** Bytes that can be changed, and are taken for UTF-8 where they are made of a string or shown as one. Not safe for several threads. */
public class Text implements Comparable<Text> {
    private static final byte[] NONE = {};

    private byte[] bytes;
    private int length;

    /** The empty text. */
    public Text() {
        bytes = NONE;
    }

    /**
     * A string as UTF-8.
     *
     * @param string the string
     */
    public Text(String string) {
        set(string);
    }

    /**
     * A copy of bytes.
     *
     * @param utf8 the bytes, of whatever encoding
     */
    public Text(byte[] utf8) {
        set(utf8);
    }

    /**
     * A copy.
     *
     * @param other what is copied
     */
    public Text(Text other) {
        set(other);
    }

    /**
     * Becomes a string as UTF-8.
     *
     * @param string the string
     */
    public void set(String string) {
        bytes = string.getBytes(StandardCharsets.UTF_8);
        length = bytes.length;
    }

    /**
     * Becomes a copy of bytes.
     *
     * @param utf8 the bytes
     */
    public void set(byte[] utf8) {
        set(utf8, 0, utf8.length);
    }

    /**
     * Becomes a copy of another one.
     *
     * @param other what is copied
     */
    public void set(Text other) {
        set(other.bytes, 0, other.length);
    }

    /**
     * Becomes a copy of bytes of an array.
     *
     * @param utf8 the array
     * @param start where they begin
     * @param count how many
     */
    public void set(byte[] utf8, int start, int count) {
        bytes = Arrays.copyOfRange(utf8, start, start + count);
        length = count;
    }

    /**
     * Adds bytes at the end.
     *
     * @param utf8 an array
     * @param start where they begin in it
     * @param count how many
     */
    public void append(byte[] utf8, int start, int count) {
        if (bytes.length - length < count) {
            bytes = Arrays.copyOf(bytes, Math.max(Math.addExact(length, count), bytes.length + (bytes.length >> 1)));
        }
        System.arraycopy(utf8, start, bytes, length, count);
        length += count;
    }

    /** Becomes the empty text. */
    public void clear() {
        length = 0;
    }

    /**
     * The array that holds the bytes: its first {@link #getLength} are these.
     *
     * @return the array itself
     */
    public byte[] getBytes() {
        return bytes;
    }

    /**
     * The bytes.
     *
     * @return a copy of just these
     */
    public byte[] copyBytes() {
        return Arrays.copyOf(bytes, length);
    }

    /**
     * How many bytes there are.
     *
     * @return the count
     */
    public int getLength() {
        return length;
    }

    /** Compares unsigned bytes; a prefix comes first. */
    @Override
    public int compareTo(Text other) {
        return Arrays.compareUnsigned(bytes, 0, length, other.bytes, 0, other.length);
    }

    @Override
    public boolean equals(Object other) {
        return other instanceof Text text && Arrays.equals(bytes, 0, length, text.bytes, 0, text.length);
    }

    @Override
    public int hashCode() {
        int hash = 1;
        for (int index = 0; index < length; index++) {
            hash = 31 * hash + bytes[index];
        }
        return hash;
    }

    /** The bytes as UTF-8. */
    @Override
    public String toString() {
        return new String(bytes, 0, length, StandardCharsets.UTF_8);
    }
}
