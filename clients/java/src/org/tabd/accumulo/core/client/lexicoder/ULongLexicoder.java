package org.tabd.accumulo.core.client.lexicoder;

/** Whole numbers of 64 bits, of which those below 0 come last. */
public class ULongLexicoder implements Lexicoder<Long> {
    /** Whole numbers of 64 bits, of which those below 0 come last. */
    public ULongLexicoder() {}

    @Override
    public byte[] encode(Long object) {
        return Encodings.number(object, Long.BYTES);
    }

    @Override
    public Long decode(byte[] bytes) {
        return Encodings.number(bytes, Long.BYTES);
    }
}
