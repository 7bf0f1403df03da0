package org.tabd.accumulo.core.client;

import org.tabd.accumulo.core.data.Mutation;

/** Stands for Accumulo's writes under conditions, which a server has no request for. None is ever made. */
public interface ConditionalWriter extends AutoCloseable {
    /**
     * Isn't there: a server has no request for a write under a condition.
     *
     * @param mutation isn't looked at
     * @return never
     * @throws UnsupportedOperationException always
     */
    default Object write(Mutation mutation) {
        throw new UnsupportedOperationException("write: a server has no request for a write under a condition");
    }

    /**
     * Isn't there: a server has no request for a write under a condition.
     *
     * @throws UnsupportedOperationException always
     */
    @Override
    default void close() {
        throw new UnsupportedOperationException("close: a server has no request for a write under a condition");
    }
}
