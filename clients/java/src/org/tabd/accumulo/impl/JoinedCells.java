package org.tabd.accumulo.impl;

import java.util.Deque;
import java.util.Map.Entry;
import java.util.function.Supplier;
import org.tabd.accumulo.core.data.Key;
import org.tabd.accumulo.core.data.Value;

/** The cells of several scans, one behind the other; each begins when the one before has ended. */
final class JoinedCells extends Cells {
    private final Deque<Supplier<Cells>> left;
    private Cells now;

    JoinedCells(Deque<Supplier<Cells>> scans) {
        left = scans;
        now = left.remove().get();
    }

    @Override
    Entry<Key, Value> advance() {
        while (!now.hasNext()) {
            if (left.isEmpty()) {
                return null;
            }
            now = left.remove().get();
        }
        return now.next();
    }

    @Override
    void giveUp() {
        now.close();
        left.clear();
    }
}
