package org.tabd.accumulo.core.security;

import java.nio.ByteBuffer;
import java.nio.charset.StandardCharsets;
import java.util.ArrayList;
import java.util.Base64;
import java.util.Collection;
import java.util.Iterator;
import java.util.List;
import java.util.SortedSet;
import java.util.TreeSet;
import org.tabd.accumulo.core.data.ArrayByteSequence;
import org.tabd.accumulo.core.data.ByteSequence;

/** A set of authorizations: terms under which labels hold. It doesn't change. */
public class Authorizations implements Iterable<byte[]> {
    /** None: a scan under these shows what has the empty label, and nothing else, whatever the user holds. */
    public static final Authorizations EMPTY = new Authorizations();

    private static final String HEADER = "!AUTH1:";

    private final SortedSet<ByteSequence> terms = new TreeSet<>();

    /**
     * Strings as UTF-8.
     *
     * @param authorizations the terms
     */
    public Authorizations(String... authorizations) {
        for (String term : authorizations) {
            add(term.strip().getBytes(StandardCharsets.UTF_8));
        }
    }

    /**
     * Bytes, which are copied.
     *
     * @param authorizations the terms
     */
    public Authorizations(Collection<byte[]> authorizations) {
        authorizations.forEach(term -> add(term.clone()));
    }

    /**
     * Bytes of buffers, which are copied.
     *
     * @param authorizations the terms
     */
    public Authorizations(List<ByteBuffer> authorizations) {
        for (ByteBuffer term : authorizations) {
            byte[] bytes = new byte[term.remaining()];
            term.duplicate().get(bytes);
            add(bytes);
        }
    }

    /**
     * What {@link #getAuthorizationsArray} gave, or terms as UTF-8 with commas between them. It isn't a set of one term.
     *
     * @param serialized the bytes
     */
    public Authorizations(byte[] serialized) {
        String text = new String(serialized, StandardCharsets.UTF_8);
        boolean encoded = text.startsWith(HEADER);
        for (String word : text.substring(encoded ? HEADER.length() : 0).split(",")) {
            if (encoded && !word.isEmpty()) {
                add(Base64.getDecoder().decode(word));
            } else if (!encoded && serialized.length > 0) {
                add(word.strip().getBytes(StandardCharsets.UTF_8));
            }
        }
    }

    /**
     * The terms in one text.
     *
     * @return {@code !AUTH1:}, and each term in Base64 with commas between them
     */
    public String serialize() {
        return HEADER + String.join(",", getAuthorizations().stream().map(Base64.getEncoder()::encodeToString).toList());
    }

    /** {@return the bytes of {@link #serialize}} */
    public byte[] getAuthorizationsArray() {
        return serialize().getBytes(StandardCharsets.UTF_8);
    }

    private void add(byte[] term) {
        terms.add(new ArrayByteSequence(term));
    }

    /**
     * The terms.
     *
     * @return a copy, rising
     */
    public List<byte[]> getAuthorizations() {
        List<byte[]> found = new ArrayList<>(terms.size());
        terms.forEach(term -> found.add(term.toArray()));
        return found;
    }

    /**
     * The terms.
     *
     * @return copies in buffers, rising
     */
    public List<ByteBuffer> getAuthorizationsBB() {
        return getAuthorizations().stream().map(ByteBuffer::wrap).toList();
    }

    /**
     * Whether a term is among them.
     *
     * @param term the term
     * @return whether it is
     */
    public boolean contains(byte[] term) {
        return contains(new ArrayByteSequence(term));
    }

    /**
     * Whether a term is among them.
     *
     * @param term the term
     * @return whether it is
     */
    public boolean contains(ByteSequence term) {
        return terms.contains(term);
    }

    /**
     * Whether a term is among them.
     *
     * @param term the term, as UTF-8
     * @return whether it is
     */
    public boolean contains(String term) {
        return contains(term.getBytes(StandardCharsets.UTF_8));
    }

    /**
     * Whether there are none.
     *
     * @return whether it is empty
     */
    public boolean isEmpty() {
        return terms.isEmpty();
    }

    /**
     * How many there are.
     *
     * @return the count
     */
    public int size() {
        return terms.size();
    }

    @Override
    public Iterator<byte[]> iterator() {
        return getAuthorizations().iterator();
    }

    @Override
    public boolean equals(Object other) {
        return other instanceof Authorizations authorizations && terms.equals(authorizations.terms);
    }

    @Override
    public int hashCode() {
        return terms.hashCode();
    }

    /** The terms with commas between them. */
    @Override
    public String toString() {
        return String.join(",", terms.stream().map(Object::toString).toList());
    }
}
