package org.tabd.accumulo.core.client;

import java.util.Iterator;
import java.util.Map.Entry;
import java.util.concurrent.TimeUnit;
import java.util.function.BiConsumer;
import java.util.stream.Stream;
import java.util.stream.StreamSupport;
import org.tabd.accumulo.core.data.Key;
import org.tabd.accumulo.core.data.Value;
import org.tabd.accumulo.core.security.Authorizations;
import org.tabd.hadoop.io.Text;

/**
 * What scanners have in common. One thread uses a scanner at a time; settings hold for the iterators that are made behind them.
 *
 * <p>An iterator throws a {@link RuntimeException} whose cause is an {@link AccumuloSecurityException}, a {@link TableNotFoundException}
 * or an {@link AccumuloException}, or a {@link TimedOutException}.
 */
public interface ScannerBase extends Iterable<Entry<Key, Value>>, AutoCloseable {
    /**
     * Adds a filter: a {@code RegExFilter}, {@code GrepIterator} or {@code TimestampFilter}, which runs in the client.
     *
     * @param setting the filter
     * @throws UnsupportedOperationException for any other iterator, as a server runs none; and for a filter of values or times below
     *     priority 20, which in Accumulo sees versions that the table doesn't show
     * @throws IllegalArgumentException if its name or priority is in use
     */
    void addScanIterator(IteratorSetting setting);

    /**
     * Takes a filter away.
     *
     * @param iteratorName its name
     */
    void removeScanIterator(String iteratorName);

    /**
     * Changes an option of a filter.
     *
     * @param iteratorName its name
     * @param key the option
     * @param value its value
     * @throws IllegalArgumentException if there is no filter of the name
     */
    void updateScanIteratorOption(String iteratorName, String key, String value);

    /** Takes all filters away. */
    void clearScanIterators();

    /**
     * Shows a family, besides what is shown by other calls; without any all columns are shown.
     *
     * @param family the family
     */
    void fetchColumnFamily(Text family);

    /**
     * Shows a family, besides what is shown by other calls.
     *
     * @param family the family, as UTF-8
     */
    default void fetchColumnFamily(CharSequence family) {
        fetchColumnFamily(new Text(family.toString()));
    }

    /**
     * Shows a column, besides what is shown by other calls.
     *
     * @param family the family
     * @param qualifier the qualifier
     */
    void fetchColumn(Text family, Text qualifier);

    /**
     * Shows a column, besides what is shown by other calls.
     *
     * @param family the family, as UTF-8
     * @param qualifier the qualifier, as UTF-8
     */
    default void fetchColumn(CharSequence family, CharSequence qualifier) {
        fetchColumn(new Text(family.toString()), new Text(qualifier.toString()));
    }

    /**
     * Shows a column, besides what is shown by other calls.
     *
     * @param column the column
     */
    default void fetchColumn(IteratorSetting.Column column) {
        if (column.getColumnQualifier() == null) {
            fetchColumnFamily(column.getColumnFamily());
        } else {
            fetchColumn(column.getColumnFamily(), column.getColumnQualifier());
        }
    }

    /** Shows all columns. */
    void clearColumns();

    /**
     * Begins a scan. What it shows is what the table has at that moment, whatever is written later.
     *
     * @return its cells
     */
    @Override
    Iterator<Entry<Key, Value>> iterator();

    /**
     * The cells of a new scan, in a stream.
     *
     * @return the stream
     */
    default Stream<Entry<Key, Value>> stream() {
        return StreamSupport.stream(spliterator(), false);
    }

    /**
     * Does something with each cell of a new scan.
     *
     * @param keyValueConsumer what
     */
    default void forEach(BiConsumer<? super Key, ? super Value> keyValueConsumer) {
        for (Entry<Key, Value> entry : this) {
            keyValueConsumer.accept(entry.getKey(), entry.getValue());
        }
    }

    /**
     * How long the server may let an iterator wait.
     *
     * @param timeout how long; 0 is as long as the client waits
     * @param timeUnit of what
     */
    void setTimeout(long timeout, TimeUnit timeUnit);

    /**
     * How long the server may let an iterator wait.
     *
     * @param timeUnit of what
     * @return how long
     */
    long getTimeout(TimeUnit timeUnit);

    /** Ends the scans of all its iterators. */
    @Override
    void close();

    /**
     * Under which authorizations it scans.
     *
     * @return the authorizations
     */
    Authorizations getAuthorizations();
}
