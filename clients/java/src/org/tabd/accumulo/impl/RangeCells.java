package org.tabd.accumulo.impl;

import java.time.Duration;
import java.util.Collections;
import java.util.Iterator;
import java.util.Map.Entry;
import org.tabd.accumulo.core.data.Key;
import org.tabd.accumulo.core.data.Range;
import org.tabd.accumulo.core.data.Value;
import org.tabd.protocol.Batch;
import org.tabd.protocol.Cell;
import org.tabd.protocol.Pending;
import org.tabd.protocol.Request;

/** The cells of one range, in batches, of which the next one is asked for while the caller reads. */
final class RangeCells extends Cells {
    private final Scan scan;
    private final Range range;
    private final boolean exact;
    private final int size;
    private final ServerSession session;
    private long unhurried;
    private Pending<Batch> ahead;
    private Iterator<Cell> cells = Collections.emptyIterator();
    private boolean more = true;

    /** Begins a scan; the next batch is asked for early once so many were read. */
    RangeCells(Link link, Scan scan, Range range, int size, long unhurried, Duration timeout) {
        RowsOf of = RowsOf.range(range);
        this.scan = scan;
        this.range = range;
        this.exact = of.exact();
        this.size = size;
        this.unhurried = unhurried;
        session = new ServerSession(link, scan, of.rows(), of.column(), timeout);
    }

    @Override
    Entry<Key, Value> advance() {
        while (true) {
            while (cells.hasNext()) {
                Entry<Key, Value> entry = Scan.entry(cells.next());
                if (!exact && range.afterEndKey(entry.getKey())) {
                    return null;
                }
                if ((exact || !range.beforeStartKey(entry.getKey())) && scan.test(entry)) {
                    return entry;
                }
            }
            if (!more) {
                return null;
            }
            load();
        }
    }

    private void load() {
        Batch batch = session.await(ahead == null ? ask() : ahead);
        cells = batch.cells().iterator();
        more = batch.more();
        ahead = null;
        if (more && unhurried-- <= 0) {
            try {
                ahead = ask();
            } catch (RuntimeException ended) {
                // these cells are given all the same, and who asks for more is told so
            }
        }
    }

    private Pending<Batch> ask() {
        return session.send(number -> Request.next(number, size));
    }

    @Override
    void giveUp() {
        session.close();
        cells = Collections.emptyIterator();
        more = false;
    }
}
