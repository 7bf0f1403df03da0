package org.tabd.accumulo.core.client.lexicoder;

import java.util.List;
import org.tabd.accumulo.core.util.ComparablePair;

/**
 * Pairs, of which the first part counts first.
 *
 * @param <A> the first part
 * @param <B> the second part
 */
public class PairLexicoder<A extends Comparable<A>, B extends Comparable<B>> implements Lexicoder<ComparablePair<A, B>> {
    private final Lexicoder<A> first;
    private final Lexicoder<B> second;

    /**
     * Encodes pairs.
     *
     * @param first for the first part
     * @param second for the second part
     */
    public PairLexicoder(Lexicoder<A> first, Lexicoder<B> second) {
        this.first = first;
        this.second = second;
    }

    @Override
    public byte[] encode(ComparablePair<A, B> object) {
        return Encodings.join(List.of(first.encode(object.getFirst()), second.encode(object.getSecond())));
    }

    @Override
    public ComparablePair<A, B> decode(byte[] bytes) {
        List<byte[]> parts = Encodings.split(bytes);
        if (parts.size() != 2) {
            throw new IllegalArgumentException("Data does not have 2 fields, it has " + parts.size());
        }
        return new ComparablePair<>(first.decode(parts.get(0)), second.decode(parts.get(1)));
    }
}
