package org.tabd.accumulo.core.client;

import org.tabd.accumulo.core.client.admin.InstanceOperations;
import org.tabd.accumulo.core.client.admin.NamespaceOperations;
import org.tabd.accumulo.core.client.admin.SecurityOperations;
import org.tabd.accumulo.core.client.admin.TableOperations;
import org.tabd.accumulo.core.security.Authorizations;

/**
 * A user's client of a server. It connects when it is first asked something, and again where the server has ended the connection meanwhile.
 * Scans and operations share one connection; each writer has one of its own. Many threads may use it at once.
 */
public interface AccumuloClient extends AutoCloseable {
    /**
     * A scanner of many ranges.
     *
     * @param tableName the table
     * @param authorizations under which labels are shown
     * @param numQueryThreads ignored: requests don't wait for one another on the connection
     * @return the scanner
     * @throws TableNotFoundException if there is no such table
     */
    default BatchScanner createBatchScanner(String tableName, Authorizations authorizations, int numQueryThreads)
            throws TableNotFoundException {
        return createBatchScanner(tableName, authorizations);
    }

    /**
     * A scanner of many ranges.
     *
     * @param tableName the table
     * @param authorizations under which labels are shown
     * @return the scanner
     * @throws TableNotFoundException if there is no such table
     */
    BatchScanner createBatchScanner(String tableName, Authorizations authorizations) throws TableNotFoundException;

    /**
     * A scanner of many ranges, under all authorizations that the user holds.
     *
     * @param tableName the table
     * @return the scanner
     * @throws TableNotFoundException if there is no such table
     * @throws AccumuloSecurityException if the user is none
     * @throws AccumuloException if the server can't be asked
     */
    BatchScanner createBatchScanner(String tableName) throws TableNotFoundException, AccumuloSecurityException, AccumuloException;

    /**
     * A scanner of one range.
     *
     * @param tableName the table
     * @param authorizations under which labels are shown
     * @return the scanner
     * @throws TableNotFoundException if there is no such table
     */
    Scanner createScanner(String tableName, Authorizations authorizations) throws TableNotFoundException;

    /**
     * A scanner of one range, under all authorizations that the user holds.
     *
     * @param tableName the table
     * @return the scanner
     * @throws TableNotFoundException if there is no such table
     * @throws AccumuloSecurityException if the user is none
     * @throws AccumuloException if the server can't be asked
     */
    Scanner createScanner(String tableName) throws TableNotFoundException, AccumuloSecurityException, AccumuloException;

    /**
     * A writer to a table.
     *
     * @param tableName the table
     * @param config how it queues
     * @return the writer
     * @throws TableNotFoundException if there is no such table
     */
    BatchWriter createBatchWriter(String tableName, BatchWriterConfig config) throws TableNotFoundException;

    /**
     * A writer to a table.
     *
     * @param tableName the table
     * @return the writer
     * @throws TableNotFoundException if there is no such table
     */
    default BatchWriter createBatchWriter(String tableName) throws TableNotFoundException {
        return createBatchWriter(tableName, new BatchWriterConfig());
    }

    /**
     * Writers to several tables.
     *
     * @param config how they queue
     * @return the writers
     */
    MultiTableBatchWriter createMultiTableBatchWriter(BatchWriterConfig config);

    /**
     * Writers to several tables.
     *
     * @return the writers
     */
    default MultiTableBatchWriter createMultiTableBatchWriter() {
        return createMultiTableBatchWriter(new BatchWriterConfig());
    }

    /**
     * Isn't there.
     *
     * @param tableName a table
     * @param authorizations authorizations
     * @param numQueryThreads a count
     * @return never
     * @throws UnsupportedOperationException always
     */
    default BatchDeleter createBatchDeleter(String tableName, Authorizations authorizations, int numQueryThreads) {
        throw new UnsupportedOperationException("createBatchDeleter: a server deletes no ranges; scan, and write deletes");
    }

    /**
     * Isn't there.
     *
     * @param tableName a table
     * @return never
     * @throws UnsupportedOperationException always
     */
    default ConditionalWriter createConditionalWriter(String tableName) {
        throw new UnsupportedOperationException("createConditionalWriter: a server has no request for a write under a condition");
    }

    /**
     * Who asks.
     *
     * @return the user
     */
    String whoami();

    /**
     * What is asked of tables.
     *
     * @return the operations
     */
    TableOperations tableOperations();

    /**
     * What is asked of users.
     *
     * @return the operations
     */
    SecurityOperations securityOperations();

    /**
     * Isn't there.
     *
     * @return never
     * @throws UnsupportedOperationException always
     */
    default NamespaceOperations namespaceOperations() {
        throw new UnsupportedOperationException("namespaceOperations: a server has no namespaces; a dot in a table's name is a dot");
    }

    /**
     * Isn't there.
     *
     * @return never
     * @throws UnsupportedOperationException always
     */
    default InstanceOperations instanceOperations() {
        throw new UnsupportedOperationException("instanceOperations: a server is one process, which tabd serve configures");
    }

    /** Ends the connection, and its scans with it. Writers stay until they are closed. */
    @Override
    void close();
}
