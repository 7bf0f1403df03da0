package org.tabd.accumulo.core.client.lexicoder;

/** Whole numbers of 32 bits. */
public class IntegerLexicoder implements Lexicoder<Integer> {
    /** Whole numbers of 32 bits. */
    public IntegerLexicoder() {}

    @Override
    public byte[] encode(Integer object) {
        return Encodings.number(object ^ Integer.MIN_VALUE, Integer.BYTES);
    }

    @Override
    public Integer decode(byte[] bytes) {
        return (int) Encodings.number(bytes, Integer.BYTES) ^ Integer.MIN_VALUE;
    }
}
