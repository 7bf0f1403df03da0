package org.tabd.accumulo.core.client;

import java.util.Iterator;
import java.util.Map.Entry;
import java.util.NoSuchElementException;
import org.tabd.accumulo.core.data.ByteSequence;
import org.tabd.accumulo.core.data.Key;
import org.tabd.accumulo.core.data.Value;

/** The cells of a scan, row by row. The cells of a row are passed over once the next one is asked for. */
public class RowIterator implements Iterator<Iterator<Entry<Key, Value>>> {
    private final Iterator<Entry<Key, Value>> cells;
    private Entry<Key, Value> ahead;
    private Row last;
    private long count;

    /** The cells of one row. */
    private final class Row implements Iterator<Entry<Key, Value>> {
        private final ByteSequence row = ahead.getKey().getRowData();

        @Override
        public boolean hasNext() {
            if (last != this) {
                throw new IllegalStateException("SingleRowIter no longer valid");
            }
            return isInRow();
        }

        private boolean isInRow() {
            return isAhead() && ahead.getKey().getRowData().equals(row);
        }

        @Override
        public Entry<Key, Value> next() {
            if (!hasNext()) {
                throw new NoSuchElementException();
            }
            return take();
        }
    }

    /**
     * Takes the cells of a new scan.
     *
     * @param cells a scanner
     */
    public RowIterator(Iterable<Entry<Key, Value>> cells) {
        this(cells.iterator());
    }

    /**
     * Takes cells.
     *
     * @param cells those of a scan
     */
    public RowIterator(Iterator<Entry<Key, Value>> cells) {
        this.cells = cells;
    }

    private boolean isAhead() {
        if (ahead == null && cells.hasNext()) {
            ahead = cells.next();
        }
        return ahead != null;
    }

    private Entry<Key, Value> take() {
        Entry<Key, Value> taken = ahead;
        ahead = null;
        count++;
        return taken;
    }

    /** Whether there is a row more; the cells of the one before are passed over. */
    @Override
    public boolean hasNext() {
        while (last != null && last.isInRow()) {
            take();
        }
        last = null;
        return isAhead();
    }

    @Override
    public Iterator<Entry<Key, Value>> next() {
        if (!hasNext()) {
            throw new NoSuchElementException();
        }
        last = new Row();
        return last;
    }

    /** {@return how many cells were taken or passed over} */
    public long getKVCount() {
        return count;
    }
}
