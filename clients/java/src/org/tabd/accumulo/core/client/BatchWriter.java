package org.tabd.accumulo.core.client;

import org.tabd.accumulo.core.data.Mutation;

/**
 * Writes mutations to a table, many at a time over a connection of its own. Each mutation is done whole or not at all, and by itself. Many
 * threads may use it at once.
 *
 * <p>What the server refuses is told by the next call behind the answer, at last by {@link #flush} or {@link #close}, and by each call
 * after that: a writer that was told so is only good for being closed.
 */
public interface BatchWriter extends AutoCloseable {
    /**
     * Queues a mutation, which is copied.
     *
     * @param mutation the mutation
     * @throws MutationsRejectedException if mutations that were given before weren't done
     * @throws IllegalArgumentException if it has no update, or over 8 MiB together
     * @throws IllegalStateException if the writer is closed
     */
    void addMutation(Mutation mutation) throws MutationsRejectedException;

    /**
     * Queues mutations, which are copied.
     *
     * @param mutations the mutations
     * @throws MutationsRejectedException if mutations that were given before weren't done
     */
    default void addMutations(Iterable<Mutation> mutations) throws MutationsRejectedException {
        for (Mutation mutation : mutations) {
            addMutation(mutation);
        }
    }

    /**
     * Waits until all that is queued is done.
     *
     * @throws MutationsRejectedException if mutations weren't done
     */
    void flush() throws MutationsRejectedException;

    /**
     * Waits until all that is queued is done, and gives the connection up.
     *
     * @throws MutationsRejectedException if mutations weren't done
     */
    @Override
    void close() throws MutationsRejectedException;
}
