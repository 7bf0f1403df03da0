package org.tabd.accumulo.core.client;

/** Writers to several tables, which share a queue and a connection. Many threads may use it at once. */
public interface MultiTableBatchWriter extends AutoCloseable {
    /**
     * The writer to a table. It is closed with the others; its own {@code flush} and {@code close} aren't to be called.
     *
     * @param table the table
     * @return the writer
     * @throws AccumuloException if the server can't be asked
     * @throws AccumuloSecurityException if the user is none
     * @throws TableNotFoundException if there is no such table
     */
    BatchWriter getBatchWriter(String table) throws AccumuloException, AccumuloSecurityException, TableNotFoundException;

    /**
     * Waits until all that is queued is done.
     *
     * @throws MutationsRejectedException if mutations weren't done
     */
    void flush() throws MutationsRejectedException;

    /**
     * Waits until all that is queued is done, and gives the connection up.
     *
     * @throws MutationsRejectedException if mutations weren't done
     */
    @Override
    void close() throws MutationsRejectedException;

    /**
     * Whether it is closed.
     *
     * @return whether it is
     */
    boolean isClosed();
}
