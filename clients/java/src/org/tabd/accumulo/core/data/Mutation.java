package org.tabd.accumulo.core.data;

import java.nio.ByteBuffer;
import java.util.ArrayList;
import java.util.Arrays;
import java.util.List;
import org.tabd.accumulo.core.security.ColumnVisibility;
import org.tabd.hadoop.io.Text;
import org.tabd.protocol.Updates;

/**
 * Puts and deletes of one row, which a writer does whole or not at all. What is given to it is copied, so a caller's buffers may be used
 * again. Not safe for several threads.
 */
public class Mutation {
    private static final int CAPACITY = 64;

    private final byte[] row;
    private final Updates updates;

    /**
     * A mutation of a row.
     *
     * @param row the row
     */
    public Mutation(Text row) {
        this(Bytes.of(row), CAPACITY, false);
    }

    /**
     * A mutation of a row.
     *
     * @param row the row
     * @param initialBufferSize for how many bytes of updates there is room at first
     */
    public Mutation(Text row, int initialBufferSize) {
        this(Bytes.of(row), initialBufferSize, false);
    }

    /**
     * A mutation of a row.
     *
     * @param row the row, as UTF-8
     */
    public Mutation(CharSequence row) {
        this(Bytes.of(row), CAPACITY, false);
    }

    /**
     * A mutation of a row.
     *
     * @param row the row, as UTF-8
     * @param initialBufferSize for how many bytes of updates there is room at first
     */
    public Mutation(CharSequence row, int initialBufferSize) {
        this(Bytes.of(row), initialBufferSize, false);
    }

    /**
     * A mutation of a row.
     *
     * @param row the row, which is copied
     */
    public Mutation(byte[] row) {
        this(row, CAPACITY, true);
    }

    /**
     * A mutation of a row.
     *
     * @param row the row, which is copied
     * @param initialBufferSize for how many bytes of updates there is room at first
     */
    public Mutation(byte[] row, int initialBufferSize) {
        this(row, initialBufferSize, true);
    }

    /**
     * A mutation of a row.
     *
     * @param row an array, which is copied
     * @param start where the row begins in it
     * @param length how many bytes it has
     */
    public Mutation(byte[] row, int start, int length) {
        this(Arrays.copyOfRange(row, start, start + length), CAPACITY, false);
    }

    /**
     * A copy.
     *
     * @param other what is copied
     */
    public Mutation(Mutation other) {
        row = other.row;
        updates = new Updates(other.updates);
    }

    private Mutation(byte[] row, int capacity, boolean copy) {
        this.row = copy ? row.clone() : row;
        updates = new Updates(capacity);
    }

    /**
     * Writes a value, at the time that the server gives.
     *
     * @param columnFamily the family
     * @param columnQualifier the qualifier
     * @param value the value
     */
    public void put(Text columnFamily, Text columnQualifier, Value value) {
        updates.put(Bytes.of(columnFamily), Bytes.of(columnQualifier), Bytes.NONE, null, value.get());
    }

    /**
     * Writes a value, at the time that the server gives.
     *
     * @param columnFamily the family
     * @param columnQualifier the qualifier
     * @param columnVisibility the label
     * @param value the value
     */
    public void put(Text columnFamily, Text columnQualifier, ColumnVisibility columnVisibility, Value value) {
        updates.put(Bytes.of(columnFamily), Bytes.of(columnQualifier), columnVisibility.getExpression(), null, value.get());
    }

    /**
     * Writes a value.
     *
     * @param columnFamily the family
     * @param columnQualifier the qualifier
     * @param timestamp the time
     * @param value the value
     */
    public void put(Text columnFamily, Text columnQualifier, long timestamp, Value value) {
        updates.put(Bytes.of(columnFamily), Bytes.of(columnQualifier), Bytes.NONE, timestamp, value.get());
    }

    /**
     * Writes a value.
     *
     * @param columnFamily the family
     * @param columnQualifier the qualifier
     * @param columnVisibility the label
     * @param timestamp the time
     * @param value the value
     */
    public void put(Text columnFamily, Text columnQualifier, ColumnVisibility columnVisibility, long timestamp, Value value) {
        updates.put(Bytes.of(columnFamily), Bytes.of(columnQualifier), columnVisibility.getExpression(), timestamp, value.get());
    }

    /**
     * Hides what its column holds up to the time that the server gives.
     *
     * @param columnFamily the family
     * @param columnQualifier the qualifier
     */
    public void putDelete(Text columnFamily, Text columnQualifier) {
        updates.delete(Bytes.of(columnFamily), Bytes.of(columnQualifier), Bytes.NONE, null);
    }

    /**
     * Hides what its column holds up to the time that the server gives.
     *
     * @param columnFamily the family
     * @param columnQualifier the qualifier
     * @param columnVisibility the label
     */
    public void putDelete(Text columnFamily, Text columnQualifier, ColumnVisibility columnVisibility) {
        updates.delete(Bytes.of(columnFamily), Bytes.of(columnQualifier), columnVisibility.getExpression(), null);
    }

    /**
     * Hides what its column holds up to this time.
     *
     * @param columnFamily the family
     * @param columnQualifier the qualifier
     * @param timestamp the time
     */
    public void putDelete(Text columnFamily, Text columnQualifier, long timestamp) {
        updates.delete(Bytes.of(columnFamily), Bytes.of(columnQualifier), Bytes.NONE, timestamp);
    }

    /**
     * Hides what its column holds up to this time.
     *
     * @param columnFamily the family
     * @param columnQualifier the qualifier
     * @param columnVisibility the label
     * @param timestamp the time
     */
    public void putDelete(Text columnFamily, Text columnQualifier, ColumnVisibility columnVisibility, long timestamp) {
        updates.delete(Bytes.of(columnFamily), Bytes.of(columnQualifier), columnVisibility.getExpression(), timestamp);
    }

    /**
     * Writes a value, at the time that the server gives.
     *
     * @param columnFamily the family
     * @param columnQualifier the qualifier
     * @param value the value
     */
    public void put(CharSequence columnFamily, CharSequence columnQualifier, Value value) {
        updates.put(Bytes.of(columnFamily), Bytes.of(columnQualifier), Bytes.NONE, null, value.get());
    }

    /**
     * Writes a value, at the time that the server gives.
     *
     * @param columnFamily the family
     * @param columnQualifier the qualifier
     * @param columnVisibility the label
     * @param value the value
     */
    public void put(CharSequence columnFamily, CharSequence columnQualifier, ColumnVisibility columnVisibility, Value value) {
        updates.put(Bytes.of(columnFamily), Bytes.of(columnQualifier), columnVisibility.getExpression(), null, value.get());
    }

    /**
     * Writes a value.
     *
     * @param columnFamily the family
     * @param columnQualifier the qualifier
     * @param timestamp the time
     * @param value the value
     */
    public void put(CharSequence columnFamily, CharSequence columnQualifier, long timestamp, Value value) {
        updates.put(Bytes.of(columnFamily), Bytes.of(columnQualifier), Bytes.NONE, timestamp, value.get());
    }

    /**
     * Writes a value.
     *
     * @param columnFamily the family
     * @param columnQualifier the qualifier
     * @param columnVisibility the label
     * @param timestamp the time
     * @param value the value
     */
    public void put(
            CharSequence columnFamily, CharSequence columnQualifier, ColumnVisibility columnVisibility, long timestamp, Value value) {
        updates.put(Bytes.of(columnFamily), Bytes.of(columnQualifier), columnVisibility.getExpression(), timestamp, value.get());
    }

    /**
     * Writes a value, at the time that the server gives.
     *
     * @param columnFamily the family
     * @param columnQualifier the qualifier
     * @param value the value
     */
    public void put(CharSequence columnFamily, CharSequence columnQualifier, CharSequence value) {
        updates.put(Bytes.of(columnFamily), Bytes.of(columnQualifier), Bytes.NONE, null, Bytes.of(value));
    }

    /**
     * Writes a value, at the time that the server gives.
     *
     * @param columnFamily the family
     * @param columnQualifier the qualifier
     * @param columnVisibility the label
     * @param value the value
     */
    public void put(CharSequence columnFamily, CharSequence columnQualifier, ColumnVisibility columnVisibility, CharSequence value) {
        updates.put(Bytes.of(columnFamily), Bytes.of(columnQualifier), columnVisibility.getExpression(), null, Bytes.of(value));
    }

    /**
     * Writes a value.
     *
     * @param columnFamily the family
     * @param columnQualifier the qualifier
     * @param timestamp the time
     * @param value the value
     */
    public void put(CharSequence columnFamily, CharSequence columnQualifier, long timestamp, CharSequence value) {
        updates.put(Bytes.of(columnFamily), Bytes.of(columnQualifier), Bytes.NONE, timestamp, Bytes.of(value));
    }

    /**
     * Writes a value.
     *
     * @param columnFamily the family
     * @param columnQualifier the qualifier
     * @param columnVisibility the label
     * @param timestamp the time
     * @param value the value
     */
    public void put(
            CharSequence columnFamily,
            CharSequence columnQualifier,
            ColumnVisibility columnVisibility,
            long timestamp,
            CharSequence value) {
        updates.put(Bytes.of(columnFamily), Bytes.of(columnQualifier), columnVisibility.getExpression(), timestamp, Bytes.of(value));
    }

    /**
     * Hides what its column holds up to the time that the server gives.
     *
     * @param columnFamily the family
     * @param columnQualifier the qualifier
     */
    public void putDelete(CharSequence columnFamily, CharSequence columnQualifier) {
        updates.delete(Bytes.of(columnFamily), Bytes.of(columnQualifier), Bytes.NONE, null);
    }

    /**
     * Hides what its column holds up to the time that the server gives.
     *
     * @param columnFamily the family
     * @param columnQualifier the qualifier
     * @param columnVisibility the label
     */
    public void putDelete(CharSequence columnFamily, CharSequence columnQualifier, ColumnVisibility columnVisibility) {
        updates.delete(Bytes.of(columnFamily), Bytes.of(columnQualifier), columnVisibility.getExpression(), null);
    }

    /**
     * Hides what its column holds up to this time.
     *
     * @param columnFamily the family
     * @param columnQualifier the qualifier
     * @param timestamp the time
     */
    public void putDelete(CharSequence columnFamily, CharSequence columnQualifier, long timestamp) {
        updates.delete(Bytes.of(columnFamily), Bytes.of(columnQualifier), Bytes.NONE, timestamp);
    }

    /**
     * Hides what its column holds up to this time.
     *
     * @param columnFamily the family
     * @param columnQualifier the qualifier
     * @param columnVisibility the label
     * @param timestamp the time
     */
    public void putDelete(CharSequence columnFamily, CharSequence columnQualifier, ColumnVisibility columnVisibility, long timestamp) {
        updates.delete(Bytes.of(columnFamily), Bytes.of(columnQualifier), columnVisibility.getExpression(), timestamp);
    }

    /**
     * Writes a value, at the time that the server gives.
     *
     * @param columnFamily the family
     * @param columnQualifier the qualifier
     * @param value the value
     */
    public void put(byte[] columnFamily, byte[] columnQualifier, byte[] value) {
        updates.put(columnFamily, columnQualifier, Bytes.NONE, null, value);
    }

    /**
     * Writes a value, at the time that the server gives.
     *
     * @param columnFamily the family
     * @param columnQualifier the qualifier
     * @param columnVisibility the label
     * @param value the value
     */
    public void put(byte[] columnFamily, byte[] columnQualifier, ColumnVisibility columnVisibility, byte[] value) {
        updates.put(columnFamily, columnQualifier, columnVisibility.getExpression(), null, value);
    }

    /**
     * Writes a value.
     *
     * @param columnFamily the family
     * @param columnQualifier the qualifier
     * @param timestamp the time
     * @param value the value
     */
    public void put(byte[] columnFamily, byte[] columnQualifier, long timestamp, byte[] value) {
        updates.put(columnFamily, columnQualifier, Bytes.NONE, timestamp, value);
    }

    /**
     * Writes a value.
     *
     * @param columnFamily the family
     * @param columnQualifier the qualifier
     * @param columnVisibility the label
     * @param timestamp the time
     * @param value the value
     */
    public void put(byte[] columnFamily, byte[] columnQualifier, ColumnVisibility columnVisibility, long timestamp, byte[] value) {
        updates.put(columnFamily, columnQualifier, columnVisibility.getExpression(), timestamp, value);
    }

    /**
     * Hides what its column holds up to the time that the server gives.
     *
     * @param columnFamily the family
     * @param columnQualifier the qualifier
     */
    public void putDelete(byte[] columnFamily, byte[] columnQualifier) {
        updates.delete(columnFamily, columnQualifier, Bytes.NONE, null);
    }

    /**
     * Hides what its column holds up to the time that the server gives.
     *
     * @param columnFamily the family
     * @param columnQualifier the qualifier
     * @param columnVisibility the label
     */
    public void putDelete(byte[] columnFamily, byte[] columnQualifier, ColumnVisibility columnVisibility) {
        updates.delete(columnFamily, columnQualifier, columnVisibility.getExpression(), null);
    }

    /**
     * Hides what its column holds up to this time.
     *
     * @param columnFamily the family
     * @param columnQualifier the qualifier
     * @param timestamp the time
     */
    public void putDelete(byte[] columnFamily, byte[] columnQualifier, long timestamp) {
        updates.delete(columnFamily, columnQualifier, Bytes.NONE, timestamp);
    }

    /**
     * Hides what its column holds up to this time.
     *
     * @param columnFamily the family
     * @param columnQualifier the qualifier
     * @param columnVisibility the label
     * @param timestamp the time
     */
    public void putDelete(byte[] columnFamily, byte[] columnQualifier, ColumnVisibility columnVisibility, long timestamp) {
        updates.delete(columnFamily, columnQualifier, columnVisibility.getExpression(), timestamp);
    }

    /**
     * Begins an update, part by part: {@code at().family("f").qualifier("q").put("v")}. What isn't given is empty, and the time the
     * server's.
     *
     * @return where the parts are said
     */
    public Update at() {
        return new Update();
    }

    /** The parts of an update of a {@link Mutation}. */
    public final class Update {
        private byte[] family = Bytes.NONE;
        private byte[] qualifier = Bytes.NONE;
        private byte[] visibility = Bytes.NONE;
        private Long timestamp;

        private Update() {}

        /**
         * Says the family.
         *
         * @param family the family
         * @return this
         */
        public Update family(byte[] family) {
            this.family = family.clone();
            return this;
        }

        /**
         * Says the family.
         *
         * @param family the family
         * @return this
         */
        public Update family(CharSequence family) {
            this.family = Bytes.of(family);
            return this;
        }

        /**
         * Says the family.
         *
         * @param family the family
         * @return this
         */
        public Update family(Text family) {
            this.family = Bytes.of(family);
            return this;
        }

        /**
         * Says the family.
         *
         * @param family the family
         * @return this
         */
        public Update family(ByteBuffer family) {
            this.family = new Value(family).get();
            return this;
        }

        /**
         * Says the qualifier.
         *
         * @param qualifier the qualifier
         * @return this
         */
        public Update qualifier(byte[] qualifier) {
            this.qualifier = qualifier.clone();
            return this;
        }

        /**
         * Says the qualifier.
         *
         * @param qualifier the qualifier
         * @return this
         */
        public Update qualifier(CharSequence qualifier) {
            this.qualifier = Bytes.of(qualifier);
            return this;
        }

        /**
         * Says the qualifier.
         *
         * @param qualifier the qualifier
         * @return this
         */
        public Update qualifier(Text qualifier) {
            this.qualifier = Bytes.of(qualifier);
            return this;
        }

        /**
         * Says the qualifier.
         *
         * @param qualifier the qualifier
         * @return this
         */
        public Update qualifier(ByteBuffer qualifier) {
            this.qualifier = new Value(qualifier).get();
            return this;
        }

        /**
         * Says the label. It isn't checked here: the server refuses the mutation where it is none.
         *
         * @param visibility the label
         * @return this
         */
        public Update visibility(byte[] visibility) {
            this.visibility = visibility.clone();
            return this;
        }

        /**
         * Says the label. It isn't checked here: the server refuses the mutation where it is none.
         *
         * @param visibility the label
         * @return this
         */
        public Update visibility(CharSequence visibility) {
            this.visibility = Bytes.of(visibility);
            return this;
        }

        /**
         * Says the label. It isn't checked here: the server refuses the mutation where it is none.
         *
         * @param visibility the label
         * @return this
         */
        public Update visibility(Text visibility) {
            this.visibility = Bytes.of(visibility);
            return this;
        }

        /**
         * Says the label. It isn't checked here: the server refuses the mutation where it is none.
         *
         * @param visibility the label
         * @return this
         */
        public Update visibility(ByteBuffer visibility) {
            this.visibility = new Value(visibility).get();
            return this;
        }

        /**
         * Says the label.
         *
         * @param visibility the label
         * @return this
         */
        public Update visibility(ColumnVisibility visibility) {
            this.visibility = visibility.getExpression();
            return this;
        }

        /**
         * Says the time.
         *
         * @param timestamp the time
         * @return this
         */
        public Update timestamp(long timestamp) {
            this.timestamp = timestamp;
            return this;
        }

        /**
         * Writes a value there.
         *
         * @param value the value
         * @return the mutation
         */
        public Mutation put(byte[] value) {
            updates.put(family, qualifier, visibility, timestamp, value);
            return Mutation.this;
        }

        /**
         * Writes a value there.
         *
         * @param value the value
         * @return the mutation
         */
        public Mutation put(CharSequence value) {
            updates.put(family, qualifier, visibility, timestamp, Bytes.of(value));
            return Mutation.this;
        }

        /**
         * Writes a value there.
         *
         * @param value the value
         * @return the mutation
         */
        public Mutation put(Text value) {
            updates.put(family, qualifier, visibility, timestamp, Bytes.of(value));
            return Mutation.this;
        }

        /**
         * Writes a value there.
         *
         * @param value the value
         * @return the mutation
         */
        public Mutation put(Value value) {
            updates.put(family, qualifier, visibility, timestamp, value.get());
            return Mutation.this;
        }

        /**
         * Hides what the column holds up to that time.
         *
         * @return the mutation
         */
        public Mutation delete() {
            updates.delete(family, qualifier, visibility, timestamp);
            return Mutation.this;
        }
    }

    /**
     * The row.
     *
     * @return a copy
     */
    public byte[] getRow() {
        return row.clone();
    }

    /**
     * The updates.
     *
     * @return copies of them, in their order
     */
    public List<ColumnUpdate> getUpdates() {
        List<ColumnUpdate> found = new ArrayList<>(size());
        ByteBuffer bytes = ByteBuffer.wrap(updates.frame().array(), 0, updates.frame().length());
        while (bytes.hasRemaining()) {
            found.add(ColumnUpdate.read(bytes));
        }
        return found;
    }

    /**
     * How many updates there are.
     *
     * @return the count
     */
    public int size() {
        return updates.count();
    }

    /**
     * How many bytes row and updates take.
     *
     * @return the count
     */
    public long numBytes() {
        return (long) row.length + updates.frame().length();
    }

    /**
     * How many bytes of memory it takes, about.
     *
     * @return the count
     */
    public long estimatedMemoryUsed() {
        return (long) row.length + updates.frame().array().length + 128;
    }

    /**
     * The updates as they are sent; for writers.
     *
     * @return the updates themselves
     */
    public Updates toUpdates() {
        return updates;
    }

    /**
     * The mutation, an update a line.
     *
     * @return a text for people
     */
    public String prettyPrint() {
        StringBuilder text = new StringBuilder("mutation: ");
        Bytes.show(text, row).append('\n');
        getUpdates().forEach(update -> text.append(" update: ").append(update).append('\n'));
        return text.toString();
    }

    /** As {@link #prettyPrint} has it. */
    @Override
    public String toString() {
        return prettyPrint();
    }

    @Override
    public boolean equals(Object other) {
        return other instanceof Mutation mutation && Arrays.equals(row, mutation.row) && updates.equals(mutation.updates);
    }

    @Override
    public int hashCode() {
        return 31 * Arrays.hashCode(row) + updates.hashCode();
    }
}
