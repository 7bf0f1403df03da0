package org.tabd.accumulo.core.util;

import java.util.Objects;

/**
 * A pair, ordered by its first part, then by its second.
 *
 * @param <A> the first part
 * @param <B> the second part
 */
public class ComparablePair<A extends Comparable<A>, B extends Comparable<B>> implements Comparable<ComparablePair<A, B>> {
    private final A first;
    private final B second;

    /**
     * A pair.
     *
     * @param first the first part
     * @param second the second part
     */
    public ComparablePair(A first, B second) {
        this.first = Objects.requireNonNull(first);
        this.second = Objects.requireNonNull(second);
    }

    /** {@return the first part} */
    public A getFirst() {
        return first;
    }

    /** {@return the second part} */
    public B getSecond() {
        return second;
    }

    @Override
    public int compareTo(ComparablePair<A, B> other) {
        int found = first.compareTo(other.first);
        return found == 0 ? second.compareTo(other.second) : found;
    }

    @Override
    public boolean equals(Object other) {
        return other instanceof ComparablePair<?, ?> pair && first.equals(pair.first) && second.equals(pair.second);
    }

    @Override
    public int hashCode() {
        return first.hashCode() + second.hashCode();
    }

    @Override
    public String toString() {
        return "(" + first + "," + second + ")";
    }
}
