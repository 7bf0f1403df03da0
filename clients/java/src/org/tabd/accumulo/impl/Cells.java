package org.tabd.accumulo.impl;

import java.util.Iterator;
import java.util.Map.Entry;
import java.util.NoSuchElementException;
import org.tabd.accumulo.core.data.Key;
import org.tabd.accumulo.core.data.Value;

/** The cells of a scan, one by one, and the end of the scan before them. */
abstract class Cells implements Iterator<Entry<Key, Value>> {
    private Entry<Key, Value> next;
    private boolean ended;

    /** Gives the next cell, or null behind the last one. */
    abstract Entry<Key, Value> advance();

    /** Gives up what the server keeps of the scan. */
    abstract void giveUp();

    /** Ends the scan: no cell comes any more. */
    final void close() {
        ended = true;
        next = null;
        giveUp();
    }

    @Override
    public final boolean hasNext() {
        if (next == null && !ended) {
            boolean done = false;
            try {
                next = advance();
                done = true;
            } finally {
                if (!done || next == null) {
                    close();
                }
            }
        }
        return next != null;
    }

    @Override
    public final Entry<Key, Value> next() {
        if (!hasNext()) {
            throw new NoSuchElementException();
        }
        Entry<Key, Value> found = next;
        next = null;
        return found;
    }
}
