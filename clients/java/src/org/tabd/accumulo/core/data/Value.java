package org.tabd.accumulo.core.data;

import java.nio.ByteBuffer;
import java.nio.charset.StandardCharsets;
import java.util.Arrays;
import java.util.Objects;
import org.tabd.hadoop.io.Text;

/** A value: bytes, perhaps none. */
public class Value implements Comparable<Value> {
    private byte[] value;

    /** The empty value. */
    public Value() {
        this(Bytes.NONE, false);
    }

    /**
     * A string as UTF-8.
     *
     * @param text the string
     */
    public Value(CharSequence text) {
        this(Bytes.of(text), false);
    }

    /**
     * A copy of a text.
     *
     * @param text the text
     */
    public Value(Text text) {
        this(Bytes.of(text), false);
    }

    /**
     * An array, which isn't copied.
     *
     * @param bytes the array
     */
    public Value(byte[] bytes) {
        this(bytes, false);
    }

    /**
     * An array, or a copy.
     *
     * @param bytes the array
     * @param copy whether it is copied
     */
    public Value(byte[] bytes, boolean copy) {
        Objects.requireNonNull(bytes);
        value = copy ? bytes.clone() : bytes;
    }

    /**
     * A copy of what is left in a buffer.
     *
     * @param bytes the buffer, whose position stays
     */
    public Value(ByteBuffer bytes) {
        value = new byte[bytes.remaining()];
        bytes.duplicate().get(value);
    }

    /**
     * A value of these bytes, which aren't copied.
     *
     * @param other another value
     */
    public Value(Value other) {
        this(other.value, false);
    }

    /**
     * The bytes.
     *
     * @return the array itself
     */
    public byte[] get() {
        return value;
    }

    /**
     * Becomes an array, which isn't copied.
     *
     * @param bytes the array
     */
    public void set(byte[] bytes) {
        value = Objects.requireNonNull(bytes);
    }

    /**
     * Becomes a copy of an array.
     *
     * @param bytes the array
     */
    public void copy(byte[] bytes) {
        set(bytes.clone());
    }

    /**
     * How many bytes there are.
     *
     * @return the count
     */
    public int getSize() {
        return value.length;
    }

    /**
     * Whether it has these bytes.
     *
     * @param bytes the bytes
     * @return whether they are equal
     */
    public boolean contentEquals(byte[] bytes) {
        return Arrays.equals(value, bytes);
    }

    /** Compares unsigned bytes; a prefix comes first. */
    @Override
    public int compareTo(Value other) {
        return compareTo(other.value);
    }

    /**
     * Compares unsigned bytes; a prefix comes first.
     *
     * @param bytes with what
     * @return below, at or above 0
     */
    public int compareTo(byte[] bytes) {
        return Arrays.compareUnsigned(value, bytes);
    }

    @Override
    public boolean equals(Object other) {
        return other instanceof Value another && contentEquals(another.value);
    }

    @Override
    public int hashCode() {
        return Arrays.hashCode(value);
    }

    /** The bytes as UTF-8. */
    @Override
    public String toString() {
        return new String(value, StandardCharsets.UTF_8);
    }
}
