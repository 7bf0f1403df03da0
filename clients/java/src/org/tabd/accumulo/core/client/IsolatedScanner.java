package org.tabd.accumulo.core.client;

import java.util.Iterator;
import java.util.Map.Entry;
import java.util.concurrent.TimeUnit;
import org.tabd.accumulo.core.data.Key;
import org.tabd.accumulo.core.data.Range;
import org.tabd.accumulo.core.data.Value;
import org.tabd.accumulo.core.security.Authorizations;
import org.tabd.hadoop.io.Text;

/** A scanner and nothing more: what a scan shows here is of one moment anyway, and so is each row. */
public class IsolatedScanner implements Scanner {
    private final Scanner scanner;

    /**
     * Does what a scanner does.
     *
     * @param scanner which
     */
    public IsolatedScanner(Scanner scanner) {
        this.scanner = scanner;
    }

    @Override
    public void addScanIterator(IteratorSetting setting) {
        scanner.addScanIterator(setting);
    }

    @Override
    public void removeScanIterator(String name) {
        scanner.removeScanIterator(name);
    }

    @Override
    public void updateScanIteratorOption(String name, String key, String value) {
        scanner.updateScanIteratorOption(name, key, value);
    }

    @Override
    public void clearScanIterators() {
        scanner.clearScanIterators();
    }

    @Override
    public void fetchColumnFamily(Text family) {
        scanner.fetchColumnFamily(family);
    }

    @Override
    public void fetchColumn(Text family, Text qualifier) {
        scanner.fetchColumn(family, qualifier);
    }

    @Override
    public void clearColumns() {
        scanner.clearColumns();
    }

    @Override
    public Iterator<Entry<Key, Value>> iterator() {
        return scanner.iterator();
    }

    @Override
    public void setTimeout(long timeout, TimeUnit unit) {
        scanner.setTimeout(timeout, unit);
    }

    @Override
    public long getTimeout(TimeUnit unit) {
        return scanner.getTimeout(unit);
    }

    @Override
    public void close() {
        scanner.close();
    }

    @Override
    public Authorizations getAuthorizations() {
        return scanner.getAuthorizations();
    }

    @Override
    public void setRange(Range range) {
        scanner.setRange(range);
    }

    @Override
    public Range getRange() {
        return scanner.getRange();
    }

    @Override
    public void setBatchSize(int size) {
        scanner.setBatchSize(size);
    }

    @Override
    public int getBatchSize() {
        return scanner.getBatchSize();
    }

    @Override
    public void enableIsolation() {
        scanner.enableIsolation();
    }

    @Override
    public void disableIsolation() {
        scanner.disableIsolation();
    }

    @Override
    public long getReadaheadThreshold() {
        return scanner.getReadaheadThreshold();
    }

    @Override
    public void setReadaheadThreshold(long batches) {
        scanner.setReadaheadThreshold(batches);
    }
}
