package org.tabd.accumulo.core.client.lexicoder;

/** Whole numbers of 64 bits. */
public class LongLexicoder implements Lexicoder<Long> {
    /** Whole numbers of 64 bits. */
    public LongLexicoder() {}

    @Override
    public byte[] encode(Long object) {
        return Encodings.number(object ^ Long.MIN_VALUE, Long.BYTES);
    }

    @Override
    public Long decode(byte[] bytes) {
        return Encodings.number(bytes, Long.BYTES) ^ Long.MIN_VALUE;
    }
}
