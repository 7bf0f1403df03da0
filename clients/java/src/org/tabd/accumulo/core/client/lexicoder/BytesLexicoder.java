package org.tabd.accumulo.core.client.lexicoder;

/** Bytes as they are. */
public class BytesLexicoder implements Lexicoder<byte[]> {
    /** Bytes as they are. */
    public BytesLexicoder() {}

    @Override
    public byte[] encode(byte[] object) {
        return object;
    }

    @Override
    public byte[] decode(byte[] bytes) {
        return bytes.clone();
    }
}
