package org.tabd.accumulo.core.client.lexicoder;

/** Whole numbers of 32 bits, of which those below 0 come last. */
public class UIntegerLexicoder implements Lexicoder<Integer> {
    /** Whole numbers of 32 bits, of which those below 0 come last. */
    public UIntegerLexicoder() {}

    @Override
    public byte[] encode(Integer object) {
        return Encodings.number(object, Integer.BYTES);
    }

    @Override
    public Integer decode(byte[] bytes) {
        return (int) Encodings.number(bytes, Integer.BYTES);
    }
}
