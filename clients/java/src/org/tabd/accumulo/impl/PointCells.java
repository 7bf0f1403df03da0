package org.tabd.accumulo.impl;

import java.time.Duration;
import java.util.Collections;
import java.util.Iterator;
import java.util.List;
import java.util.Map.Entry;
import org.tabd.accumulo.core.data.Key;
import org.tabd.accumulo.core.data.Range;
import org.tabd.accumulo.core.data.Value;
import org.tabd.protocol.Cell;
import org.tabd.protocol.Pending;
import org.tabd.protocol.Request;
import org.tabd.protocol.RowRange;

/** The cells of many ranges of one row each, which rise and don't overlap: many are asked for at once, and more while the caller reads. */
final class PointCells extends Cells {
    private static final int AT_ONCE = 100;

    private final Scan scan;
    private final List<Range> ranges;
    private final ServerSession session;
    private int asked;
    private Pending<List<List<Cell>>> ahead;
    // the ranges of the answer that is read, and where in it the caller is
    private int place;
    private Iterator<List<Cell>> lists = Collections.emptyIterator();
    private Range range;
    private Iterator<Cell> cells = Collections.emptyIterator();

    PointCells(Link link, Scan scan, List<Range> ranges, Duration timeout) {
        this.scan = scan;
        this.ranges = ranges;
        RowRange first = rows(0);
        RowRange last = rows(ranges.size() - 1);
        session = new ServerSession(link, scan, new RowRange(first.low(), true, last.high(), true), null, timeout);
    }

    private RowRange rows(int at) {
        return RowsOf.range(ranges.get(at)).rows();
    }

    @Override
    Entry<Key, Value> advance() {
        while (true) {
            while (cells.hasNext()) {
                Entry<Key, Value> entry = Scan.entry(cells.next());
                if (range.contains(entry.getKey()) && scan.test(entry)) {
                    return entry;
                }
            }
            if (lists.hasNext()) {
                range = ranges.get(place++);
                cells = lists.next().iterator();
            } else if (place == ranges.size()) {
                return null;
            } else {
                load();
            }
        }
    }

    private void load() {
        lists = session.await(ahead == null ? ask() : ahead).iterator();
        ahead = null;
        if (asked < ranges.size()) {
            try {
                ahead = ask();
            } catch (RuntimeException ended) {
                // these cells are given all the same, and who asks for more is told so
            }
        }
    }

    private Pending<List<List<Cell>>> ask() {
        int until = Math.min(ranges.size(), asked + AT_ONCE);
        List<RowRange> wanted = ranges.subList(asked, until).stream().map(it -> RowsOf.range(it).rows()).toList();
        Pending<List<List<Cell>>> sent = session.send(number -> Request.many(number, wanted));
        asked = until;
        return sent;
    }

    @Override
    void giveUp() {
        session.close();
        place = ranges.size();
        lists = Collections.emptyIterator();
        cells = Collections.emptyIterator();
    }
}
