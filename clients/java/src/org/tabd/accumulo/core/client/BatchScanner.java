package org.tabd.accumulo.core.client;

import java.util.Collection;
import org.tabd.accumulo.core.data.Range;

/** Scans many ranges of a table, in any order. Of ranges that overlap each key is shown once. */
public interface BatchScanner extends ScannerBase {
    /**
     * Scans these ranges.
     *
     * @param ranges the ranges, at least one
     */
    void setRanges(Collection<Range> ranges);
}
