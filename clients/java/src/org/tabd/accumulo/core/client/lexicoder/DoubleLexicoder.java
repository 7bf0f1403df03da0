package org.tabd.accumulo.core.client.lexicoder;

/** Numbers with a point; -0 comes before 0, and what isn't a number behind all others or before them. */
public class DoubleLexicoder implements Lexicoder<Double> {
    /** Numbers with a point. */
    public DoubleLexicoder() {}

    @Override
    public byte[] encode(Double object) {
        long bits = Double.doubleToRawLongBits(object);
        return Encodings.number(bits < 0 ? ~bits : bits ^ Long.MIN_VALUE, Long.BYTES);
    }

    @Override
    public Double decode(byte[] bytes) {
        long bits = Encodings.number(bytes, Long.BYTES);
        return Double.longBitsToDouble(bits < 0 ? bits ^ Long.MIN_VALUE : ~bits);
    }
}
