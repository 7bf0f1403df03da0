package org.tabd.accumulo.core.client.lexicoder;

import java.util.Arrays;
import java.util.Objects;

/**
 * Encodes so that the bytes, unsigned, have the order of what they encode.
 *
 * @param <T> what is encoded
 */
public interface Lexicoder<T> {
    /**
     * Encodes.
     *
     * @param object what
     * @return its bytes
     */
    byte[] encode(T object);

    /**
     * Decodes.
     *
     * @param bytes what {@link #encode} gave
     * @return what was encoded
     * @throws IllegalArgumentException if it is seen that they aren't such
     */
    T decode(byte[] bytes);

    /**
     * Decodes a part of an array.
     *
     * @param bytes the array
     * @param offset where the part begins
     * @param length how long it is
     * @return what was encoded
     */
    default T decode(byte[] bytes, int offset, int length) {
        Objects.checkFromIndexSize(offset, length, bytes.length);
        return decode(Arrays.copyOfRange(bytes, offset, offset + length));
    }
}
