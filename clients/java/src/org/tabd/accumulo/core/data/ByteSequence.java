package org.tabd.accumulo.core.data;

import java.util.Arrays;

/** Bytes that aren't changed through this. */
public abstract class ByteSequence implements Comparable<ByteSequence> {
    /** For subclasses. */
    protected ByteSequence() {}

    /**
     * One byte.
     *
     * @param index its place
     * @return the byte
     */
    public abstract byte byteAt(int index);

    /**
     * How many there are.
     *
     * @return the count
     */
    public abstract int length();

    /**
     * Some of them.
     *
     * @param start the place of the first
     * @param end the place behind the last
     * @return those
     */
    public abstract ByteSequence subSequence(int start, int end);

    /**
     * All of them.
     *
     * @return a copy
     */
    public abstract byte[] toArray();

    /**
     * Whether an array holds them.
     *
     * @return whether {@link #getBackingArray} can be asked
     */
    public abstract boolean isBackedByArray();

    /**
     * The array that holds them.
     *
     * @return the array itself
     */
    public abstract byte[] getBackingArray();

    /**
     * Where they begin in the array.
     *
     * @return the place
     */
    public abstract int offset();

    /** Compares unsigned bytes; a prefix comes first. */
    @Override
    public int compareTo(ByteSequence other) {
        return Arrays.compareUnsigned(toArray(), other.toArray());
    }

    @Override
    public boolean equals(Object other) {
        return other instanceof ByteSequence sequence && compareTo(sequence) == 0;
    }

    @Override
    public int hashCode() {
        return Arrays.hashCode(toArray());
    }
}
