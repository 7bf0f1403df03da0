package org.tabd.accumulo.core.client;

import org.tabd.accumulo.core.data.Range;

/** Scans a range of a table, in the order of keys. */
public interface Scanner extends ScannerBase {
    /**
     * Scans this range.
     *
     * @param range the range; all keys unless set
     */
    void setRange(Range range);

    /**
     * The range.
     *
     * @return the range
     */
    Range getRange();

    /**
     * Takes so many cells at a time.
     *
     * @param size the count; 1,000 unless set
     */
    void setBatchSize(int size);

    /**
     * How many cells are taken at a time.
     *
     * @return the count
     */
    int getBatchSize();

    /** Does nothing: what a scan shows is always of one moment. */
    void enableIsolation();

    /** Does nothing: what a scan shows is always of one moment. */
    void disableIsolation();

    /**
     * Behind how many batches the next one is asked for before it is needed.
     *
     * @return the count
     */
    long getReadaheadThreshold();

    /**
     * Asks for the next batch before it is needed, behind so many.
     *
     * @param batches the count; 0 unless set
     */
    void setReadaheadThreshold(long batches);
}
