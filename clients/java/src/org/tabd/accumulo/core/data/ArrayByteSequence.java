package org.tabd.accumulo.core.data;

import java.nio.charset.StandardCharsets;
import java.util.Arrays;
import java.util.Objects;

/** Bytes of an array. */
public class ArrayByteSequence extends ByteSequence {
    private final byte[] data;
    private final int offset;
    private final int length;

    /**
     * All bytes of an array, which isn't copied.
     *
     * @param data the array
     */
    public ArrayByteSequence(byte[] data) {
        this(data, 0, data.length);
    }

    /**
     * Some bytes of an array, which isn't copied.
     *
     * @param data the array
     * @param offset where they begin
     * @param length how many
     */
    public ArrayByteSequence(byte[] data, int offset, int length) {
        Objects.checkFromIndexSize(offset, length, data.length);
        this.data = data;
        this.offset = offset;
        this.length = length;
    }

    /**
     * A string as UTF-8.
     *
     * @param string the string
     */
    public ArrayByteSequence(String string) {
        this(string.getBytes(StandardCharsets.UTF_8));
    }

    @Override
    public byte byteAt(int index) {
        return data[offset + Objects.checkIndex(index, length)];
    }

    @Override
    public int length() {
        return length;
    }

    @Override
    public ByteSequence subSequence(int start, int end) {
        Objects.checkFromToIndex(start, end, length);
        return new ArrayByteSequence(data, offset + start, end - start);
    }

    @Override
    public byte[] toArray() {
        return Arrays.copyOfRange(data, offset, offset + length);
    }

    @Override
    public boolean isBackedByArray() {
        return true;
    }

    @Override
    public byte[] getBackingArray() {
        return data;
    }

    @Override
    public int offset() {
        return offset;
    }

    /** The bytes as UTF-8. */
    @Override
    public String toString() {
        return new String(data, offset, length, StandardCharsets.UTF_8);
    }
}
