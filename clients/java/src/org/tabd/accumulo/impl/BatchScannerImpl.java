package org.tabd.accumulo.impl;

import java.util.ArrayDeque;
import java.util.Collection;
import java.util.Deque;
import java.util.Iterator;
import java.util.List;
import java.util.Map;
import java.util.Map.Entry;
import java.util.function.Supplier;
import java.util.stream.Collectors;
import org.tabd.accumulo.core.client.BatchScanner;
import org.tabd.accumulo.core.data.Key;
import org.tabd.accumulo.core.data.Range;
import org.tabd.accumulo.core.data.Value;
import org.tabd.accumulo.core.security.Authorizations;

/** A scanner of many ranges: those of one row are asked for many at once, and each longer one is a scan of its own. */
final class BatchScannerImpl extends ScanSettings implements BatchScanner {
    private static final int BATCH = 1000;

    private List<Range> ranges;

    BatchScannerImpl(Link link, String table, Authorizations authorizations) {
        super(link, table, authorizations);
    }

    @Override
    public void setRanges(Collection<Range> ranges) {
        if (ranges == null || ranges.isEmpty()) {
            throw new IllegalArgumentException("ranges must be non null and contain at least 1 range");
        }
        this.ranges = Range.mergeOverlapping(ranges);
    }

    @Override
    public Iterator<Entry<Key, Value>> iterator() {
        if (ranges == null) {
            throw new IllegalStateException("ranges not set");
        }
        Scan scan = scan();
        Map<Boolean, List<Range>> byRows = ranges.stream().collect(Collectors.partitioningBy(it -> RowsOf.range(it).isOneRow()));
        Deque<Supplier<Cells>> scans = new ArrayDeque<>();
        for (Range range : byRows.get(false)) {
            scans.add(() -> new RangeCells(link(), scan, range, BATCH, 0, timeout()));
        }
        if (!byRows.get(true).isEmpty()) {
            scans.add(() -> new PointCells(link(), scan, byRows.get(true), timeout()));
        }
        return kept(new JoinedCells(scans));
    }
}
