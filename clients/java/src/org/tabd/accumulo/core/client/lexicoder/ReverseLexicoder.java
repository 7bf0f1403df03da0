package org.tabd.accumulo.core.client.lexicoder;

import java.util.Arrays;

/**
 * The falling order of what another one encodes.
 *
 * @param <T> what is encoded
 */
public class ReverseLexicoder<T> implements Lexicoder<T> {
    private final Lexicoder<T> lexicoder;

    /**
     * Reverses the order.
     *
     * @param lexicoder of what
     */
    public ReverseLexicoder(Lexicoder<T> lexicoder) {
        this.lexicoder = lexicoder;
    }

    @Override
    public byte[] encode(T object) {
        byte[] escaped = Encodings.escape(lexicoder.encode(object));
        return turned(Arrays.copyOf(escaped, escaped.length + 1));
    }

    @Override
    public T decode(byte[] bytes) {
        if (bytes.length == 0 || bytes[bytes.length - 1] != -1) {
            throw new IllegalArgumentException("a reversed value ends by 0xff");
        }
        return lexicoder.decode(Encodings.unescape(turned(Arrays.copyOf(bytes, bytes.length - 1))));
    }

    private static byte[] turned(byte[] bytes) {
        for (int index = 0; index < bytes.length; index++) {
            bytes[index] = (byte) ~bytes[index];
        }
        return bytes;
    }
}
