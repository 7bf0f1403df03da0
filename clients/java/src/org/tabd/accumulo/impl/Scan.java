package org.tabd.accumulo.impl;

import java.util.Collection;
import java.util.List;
import java.util.Map.Entry;
import java.util.function.Predicate;
import org.tabd.accumulo.core.data.Key;
import org.tabd.accumulo.core.data.Value;
import org.tabd.accumulo.core.iterators.Filter;
import org.tabd.protocol.Cell;
import org.tabd.protocol.Column;

/**
 * What a scan is asked, its ranges aside.
 *
 * @param table the table
 * @param authorizations under which labels are shown
 * @param columns the columns; none means all
 * @param filters what is left out in the client
 */
record Scan(String table, Collection<byte[]> authorizations, List<Column> columns, List<Filter> filters)
        implements Predicate<Entry<Key, Value>> {
    /** Whether the filters show a cell. */
    @Override
    public boolean test(Entry<Key, Value> entry) {
        return filters.isEmpty() || filters.stream().allMatch(filter -> filter.shows(entry.getKey(), entry.getValue()));
    }

    static Entry<Key, Value> entry(Cell cell) {
        Key key = new Key(cell.row(), cell.family(), cell.qualifier(), cell.label(), cell.timestamp(), false, false);
        return new KeyValue(key, new Value(cell.value()));
    }

    /**
     * A cell as a scan gives it.
     *
     * @param getKey its key
     * @param getValue its value
     */
    record KeyValue(Key getKey, Value getValue) implements Entry<Key, Value> {
        @Override
        public Value setValue(Value value) {
            throw new UnsupportedOperationException("a cell that was scanned isn't changed so: write it");
        }

        @Override
        public boolean equals(Object other) {
            return other instanceof Entry<?, ?> entry && getKey.equals(entry.getKey()) && getValue.equals(entry.getValue());
        }

        @Override
        public int hashCode() {
            return getKey.hashCode() ^ getValue.hashCode();
        }

        @Override
        public String toString() {
            return getKey + " " + getValue;
        }
    }
}
