package org.tabd.accumulo.impl;

import java.time.Duration;
import java.util.concurrent.TimeUnit;
import org.tabd.accumulo.core.client.AccumuloClient;
import org.tabd.accumulo.core.client.AccumuloException;
import org.tabd.accumulo.core.client.AccumuloSecurityException;
import org.tabd.accumulo.core.client.BatchScanner;
import org.tabd.accumulo.core.client.BatchWriter;
import org.tabd.accumulo.core.client.BatchWriterConfig;
import org.tabd.accumulo.core.client.MultiTableBatchWriter;
import org.tabd.accumulo.core.client.Scanner;
import org.tabd.accumulo.core.client.TableNotFoundException;
import org.tabd.accumulo.core.client.admin.SecurityOperations;
import org.tabd.accumulo.core.client.admin.TableOperations;
import org.tabd.accumulo.core.security.Authorizations;
import org.tabd.protocol.Address;
import org.tabd.protocol.Request;
import org.tabd.protocol.Rights;

/** A client over a {@link Link}. */
public final class ClientImpl implements AccumuloClient {
    private final Link link;
    private final TableOperations tables;
    private final SecurityOperations users;

    /**
     * A client that isn't connected yet.
     *
     * @param address where the server is
     * @param user who asks
     * @param patience how long the server may let it wait
     */
    public ClientImpl(Address address, String user, Duration patience) {
        Request.name(user);
        link = new Link(address, user, patience);
        tables = new TableOperationsImpl(link);
        users = new SecurityOperationsImpl(link);
    }

    /** What the user may do with a table, of which it is known then that there is one. */
    private Rights rights(String table) throws AccumuloException, AccumuloSecurityException, TableNotFoundException {
        return Faults.askOfTable(link, table, Request.rights(table));
    }

    private void demand(String table) throws TableNotFoundException {
        try {
            rights(table);
        } catch (AccumuloException | AccumuloSecurityException fault) {
            throw new RuntimeException(fault);
        }
    }

    @Override
    public BatchScanner createBatchScanner(String table, Authorizations authorizations) throws TableNotFoundException {
        demand(table);
        return new BatchScannerImpl(link, table, authorizations);
    }

    @Override
    public BatchScanner createBatchScanner(String table) throws TableNotFoundException, AccumuloSecurityException, AccumuloException {
        return new BatchScannerImpl(link, table, new Authorizations(rights(table).authorizations()));
    }

    @Override
    public Scanner createScanner(String table, Authorizations authorizations) throws TableNotFoundException {
        demand(table);
        return new ScannerImpl(link, table, authorizations);
    }

    @Override
    public Scanner createScanner(String table) throws TableNotFoundException, AccumuloSecurityException, AccumuloException {
        return new ScannerImpl(link, table, new Authorizations(rights(table).authorizations()));
    }

    @Override
    public BatchWriter createBatchWriter(String table, BatchWriterConfig config) throws TableNotFoundException {
        demand(table);
        return new BatchWriterImpl(writes(config), table);
    }

    @Override
    public MultiTableBatchWriter createMultiTableBatchWriter(BatchWriterConfig config) {
        return new MultiTableBatchWriterImpl(writes(config), this::rights);
    }

    private Writes writes(BatchWriterConfig config) {
        long timeout = config.getTimeout(TimeUnit.MILLISECONDS);
        Duration patience = timeout == Long.MAX_VALUE ? link.patience() : Duration.ofMillis(timeout);
        return new Writes(link.another(patience), config.getMaxMemory(), config.getMaxLatency(TimeUnit.MILLISECONDS));
    }

    @Override
    public String whoami() {
        return link.user();
    }

    @Override
    public TableOperations tableOperations() {
        return tables;
    }

    @Override
    public SecurityOperations securityOperations() {
        return users;
    }

    @Override
    public void close() {
        link.close();
    }
}
