package org.tabd.accumulo.impl;

import org.tabd.accumulo.core.client.BatchWriter;
import org.tabd.accumulo.core.client.MutationsRejectedException;
import org.tabd.accumulo.core.data.Mutation;
import org.tabd.protocol.Request;

/** A writer to one table over {@link Writes}. */
final class BatchWriterImpl implements BatchWriter {
    private final Writes writes;
    private final byte[] table;

    BatchWriterImpl(Writes writes, String table) {
        this.writes = writes;
        this.table = Request.name(table);
    }

    @Override
    public void addMutation(Mutation mutation) throws MutationsRejectedException {
        writes.add(table, mutation);
    }

    @Override
    public void flush() throws MutationsRejectedException {
        writes.flush();
    }

    @Override
    public void close() throws MutationsRejectedException {
        writes.close();
    }
}
