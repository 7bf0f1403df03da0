package org.tabd.accumulo.impl;

import java.util.Iterator;
import java.util.Map.Entry;
import java.util.Objects;
import org.tabd.accumulo.core.client.Scanner;
import org.tabd.accumulo.core.data.Key;
import org.tabd.accumulo.core.data.Range;
import org.tabd.accumulo.core.data.Value;
import org.tabd.accumulo.core.security.Authorizations;

/** A scanner of one range. */
final class ScannerImpl extends ScanSettings implements Scanner {
    private static final int BATCH = 1000;

    private Range range = new Range();
    private int batchSize = BATCH;
    private long readaheadThreshold;

    ScannerImpl(Link link, String table, Authorizations authorizations) {
        super(link, table, authorizations);
    }

    @Override
    public Iterator<Entry<Key, Value>> iterator() {
        return kept(new RangeCells(link(), scan(), range, batchSize, readaheadThreshold, timeout()));
    }

    @Override
    public void setRange(Range range) {
        this.range = Objects.requireNonNull(range);
    }

    @Override
    public Range getRange() {
        return range;
    }

    @Override
    public void setBatchSize(int size) {
        if (size <= 0) {
            throw new IllegalArgumentException("size must be greater than zero");
        }
        batchSize = size;
    }

    @Override
    public int getBatchSize() {
        return batchSize;
    }

    @Override
    public void enableIsolation() {
        // a session is of one moment
    }

    @Override
    public void disableIsolation() {
        // a session is of one moment
    }

    @Override
    public long getReadaheadThreshold() {
        return readaheadThreshold;
    }

    @Override
    public void setReadaheadThreshold(long batches) {
        if (batches < 0) {
            throw new IllegalArgumentException("Number of batches before read-ahead must be non-negative");
        }
        readaheadThreshold = batches;
    }
}
