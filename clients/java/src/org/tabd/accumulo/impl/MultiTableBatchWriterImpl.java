package org.tabd.accumulo.impl;

import java.util.HashMap;
import java.util.Map;
import org.tabd.accumulo.core.client.AccumuloException;
import org.tabd.accumulo.core.client.AccumuloSecurityException;
import org.tabd.accumulo.core.client.BatchWriter;
import org.tabd.accumulo.core.client.MultiTableBatchWriter;
import org.tabd.accumulo.core.client.MutationsRejectedException;
import org.tabd.accumulo.core.client.TableNotFoundException;
import org.tabd.accumulo.core.data.Mutation;
import org.tabd.protocol.Request;

/** Writers to several tables over the same {@link Writes}. */
final class MultiTableBatchWriterImpl implements MultiTableBatchWriter {
    /** Demands that there is a table. */
    @FunctionalInterface
    interface Demand {
        Object of(String table) throws AccumuloException, AccumuloSecurityException, TableNotFoundException;
    }

    /** A writer to one table, which is flushed and closed with the others. */
    private final class Part implements BatchWriter {
        private final byte[] table;

        Part(String table) {
            this.table = Request.name(table);
        }

        @Override
        public void addMutation(Mutation mutation) throws MutationsRejectedException {
            writes.add(table, mutation);
        }

        @Override
        public void flush() {
            throw new UnsupportedOperationException("Must flush all tables, can not flush an individual table");
        }

        @Override
        public void close() {
            throw new UnsupportedOperationException("Must close all tables, can not close an individual table");
        }
    }

    private final Writes writes;
    private final Demand demand;
    private final Map<String, BatchWriter> parts = new HashMap<>();

    MultiTableBatchWriterImpl(Writes writes, Demand demand) {
        this.writes = writes;
        this.demand = demand;
    }

    @Override
    public synchronized BatchWriter getBatchWriter(String table)
            throws AccumuloException, AccumuloSecurityException, TableNotFoundException {
        BatchWriter part = parts.get(table);
        if (part == null) {
            demand.of(table);
            part = new Part(table);
            parts.put(table, part);
        }
        return part;
    }

    @Override
    public void flush() throws MutationsRejectedException {
        writes.flush();
    }

    @Override
    public void close() throws MutationsRejectedException {
        writes.close();
    }

    @Override
    public boolean isClosed() {
        return writes.isClosed();
    }
}
