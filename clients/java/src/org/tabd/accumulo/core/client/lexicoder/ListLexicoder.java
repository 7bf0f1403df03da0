package org.tabd.accumulo.core.client.lexicoder;

import java.util.ArrayList;
import java.util.List;

/**
 * Lists that aren't empty, whose first members count first; a shorter one comes before those that it begins.
 *
 * @param <T> the members
 */
public class ListLexicoder<T> implements Lexicoder<List<T>> {
    private final Lexicoder<T> lexicoder;

    /**
     * Encodes lists.
     *
     * @param lexicoder for the members
     */
    public ListLexicoder(Lexicoder<T> lexicoder) {
        this.lexicoder = lexicoder;
    }

    @Override
    public byte[] encode(List<T> object) {
        if (object.isEmpty()) {
            throw new IllegalArgumentException("ListLexicoder does not support empty lists");
        }
        return Encodings.join(object.stream().map(lexicoder::encode).toList());
    }

    @Override
    public List<T> decode(byte[] bytes) {
        List<T> found = new ArrayList<>();
        Encodings.split(bytes).forEach(part -> found.add(lexicoder.decode(part)));
        return found;
    }
}
