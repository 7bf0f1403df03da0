package org.tabd.accumulo.core.data;

import java.util.Arrays;
import java.util.Objects;
import org.tabd.accumulo.core.security.ColumnVisibility;
import org.tabd.hadoop.io.Text;

/** The key of a cell: row, family, qualifier and label, rising by unsigned bytes, then the timestamp, falling. */
public class Key implements Comparable<Key>, Cloneable {
    private byte[] row;
    private byte[] family;
    private byte[] qualifier;
    private byte[] visibility;
    private long timestamp;
    private boolean deleted;

    /** The key of empty parts, with the greatest timestamp. */
    public Key() {
        this(Bytes.NONE, Bytes.NONE, Bytes.NONE, Bytes.NONE, Long.MAX_VALUE, false, false);
    }

    /**
     * A key of all its parts.
     *
     * @param row the row
     * @param family the family
     * @param qualifier the qualifier
     * @param visibility the label
     * @param timestamp the time
     * @param deleted whether it is a marker's
     * @param copy whether the arrays are copied
     */
    public Key(byte[] row, byte[] family, byte[] qualifier, byte[] visibility, long timestamp, boolean deleted, boolean copy) {
        this.row = copy ? row.clone() : Objects.requireNonNull(row);
        this.family = copy ? family.clone() : Objects.requireNonNull(family);
        this.qualifier = copy ? qualifier.clone() : Objects.requireNonNull(qualifier);
        this.visibility = copy ? visibility.clone() : Objects.requireNonNull(visibility);
        this.timestamp = timestamp;
        this.deleted = deleted;
    }

    /**
     * A key of all its parts, which are copied.
     *
     * @param row the row
     * @param family the family
     * @param qualifier the qualifier
     * @param visibility the label
     * @param timestamp the time
     * @param deleted whether it is a marker's
     */
    public Key(byte[] row, byte[] family, byte[] qualifier, byte[] visibility, long timestamp, boolean deleted) {
        this(row, family, qualifier, visibility, timestamp, deleted, true);
    }

    /**
     * A copy of a key.
     *
     * @param other another key
     */
    public Key(Key other) {
        set(other);
    }

    /**
     * A key of texts, whose other parts are empty, with the greatest timestamp.
     *
     * @param row the row
     */
    public Key(Text row) {
        this(Bytes.of(row), Bytes.NONE, Bytes.NONE, Bytes.NONE, Long.MAX_VALUE, false, false);
    }

    /**
     * A key of texts, whose other parts are empty, with the greatest timestamp.
     *
     * @param row the row
     * @param family the family
     */
    public Key(Text row, Text family) {
        this(Bytes.of(row), Bytes.of(family), Bytes.NONE, Bytes.NONE, Long.MAX_VALUE, false, false);
    }

    /**
     * A key of texts, whose other parts are empty, with the greatest timestamp.
     *
     * @param row the row
     * @param family the family
     * @param qualifier the qualifier
     */
    public Key(Text row, Text family, Text qualifier) {
        this(Bytes.of(row), Bytes.of(family), Bytes.of(qualifier), Bytes.NONE, Long.MAX_VALUE, false, false);
    }

    /**
     * A key of texts, with the greatest timestamp.
     *
     * @param row the row
     * @param family the family
     * @param qualifier the qualifier
     * @param visibility the label
     */
    public Key(Text row, Text family, Text qualifier, Text visibility) {
        this(Bytes.of(row), Bytes.of(family), Bytes.of(qualifier), Bytes.of(visibility), Long.MAX_VALUE, false, false);
    }

    /**
     * A key of texts, whose other parts are empty.
     *
     * @param row the row
     * @param timestamp the time
     */
    public Key(Text row, long timestamp) {
        this(Bytes.of(row), Bytes.NONE, Bytes.NONE, Bytes.NONE, timestamp, false, false);
    }

    /**
     * A key of texts, whose other parts are empty.
     *
     * @param row the row
     * @param family the family
     * @param qualifier the qualifier
     * @param timestamp the time
     */
    public Key(Text row, Text family, Text qualifier, long timestamp) {
        this(Bytes.of(row), Bytes.of(family), Bytes.of(qualifier), Bytes.NONE, timestamp, false, false);
    }

    /**
     * A key of texts.
     *
     * @param row the row
     * @param family the family
     * @param qualifier the qualifier
     * @param visibility the label
     * @param timestamp the time
     */
    public Key(Text row, Text family, Text qualifier, Text visibility, long timestamp) {
        this(Bytes.of(row), Bytes.of(family), Bytes.of(qualifier), Bytes.of(visibility), timestamp, false, false);
    }

    /**
     * A key of texts.
     *
     * @param row the row
     * @param family the family
     * @param qualifier the qualifier
     * @param visibility the label
     * @param timestamp the time
     */
    public Key(Text row, Text family, Text qualifier, ColumnVisibility visibility, long timestamp) {
        this(Bytes.of(row), Bytes.of(family), Bytes.of(qualifier), visibility.getExpression(), timestamp, false, false);
    }

    /**
     * A key of strings as UTF-8, whose other parts are empty, with the greatest timestamp.
     *
     * @param row the row
     */
    public Key(CharSequence row) {
        this(Bytes.of(row), Bytes.NONE, Bytes.NONE, Bytes.NONE, Long.MAX_VALUE, false, false);
    }

    /**
     * A key of strings as UTF-8, whose other parts are empty, with the greatest timestamp.
     *
     * @param row the row
     * @param family the family
     */
    public Key(CharSequence row, CharSequence family) {
        this(Bytes.of(row), Bytes.of(family), Bytes.NONE, Bytes.NONE, Long.MAX_VALUE, false, false);
    }

    /**
     * A key of strings as UTF-8, whose other parts are empty, with the greatest timestamp.
     *
     * @param row the row
     * @param family the family
     * @param qualifier the qualifier
     */
    public Key(CharSequence row, CharSequence family, CharSequence qualifier) {
        this(Bytes.of(row), Bytes.of(family), Bytes.of(qualifier), Bytes.NONE, Long.MAX_VALUE, false, false);
    }

    /**
     * A key of strings as UTF-8, with the greatest timestamp.
     *
     * @param row the row
     * @param family the family
     * @param qualifier the qualifier
     * @param visibility the label
     */
    public Key(CharSequence row, CharSequence family, CharSequence qualifier, CharSequence visibility) {
        this(Bytes.of(row), Bytes.of(family), Bytes.of(qualifier), Bytes.of(visibility), Long.MAX_VALUE, false, false);
    }

    /**
     * A key of strings as UTF-8, whose other parts are empty.
     *
     * @param row the row
     * @param timestamp the time
     */
    public Key(CharSequence row, long timestamp) {
        this(Bytes.of(row), Bytes.NONE, Bytes.NONE, Bytes.NONE, timestamp, false, false);
    }

    /**
     * A key of strings as UTF-8, whose other parts are empty.
     *
     * @param row the row
     * @param family the family
     * @param qualifier the qualifier
     * @param timestamp the time
     */
    public Key(CharSequence row, CharSequence family, CharSequence qualifier, long timestamp) {
        this(Bytes.of(row), Bytes.of(family), Bytes.of(qualifier), Bytes.NONE, timestamp, false, false);
    }

    /**
     * A key of strings as UTF-8.
     *
     * @param row the row
     * @param family the family
     * @param qualifier the qualifier
     * @param visibility the label
     * @param timestamp the time
     */
    public Key(CharSequence row, CharSequence family, CharSequence qualifier, CharSequence visibility, long timestamp) {
        this(Bytes.of(row), Bytes.of(family), Bytes.of(qualifier), Bytes.of(visibility), timestamp, false, false);
    }

    /**
     * A key of strings as UTF-8.
     *
     * @param row the row
     * @param family the family
     * @param qualifier the qualifier
     * @param visibility the label
     * @param timestamp the time
     */
    public Key(CharSequence row, CharSequence family, CharSequence qualifier, ColumnVisibility visibility, long timestamp) {
        this(Bytes.of(row), Bytes.of(family), Bytes.of(qualifier), visibility.getExpression(), timestamp, false, false);
    }

    /**
     * A key of copied bytes, whose other parts are empty, with the greatest timestamp.
     *
     * @param row the row
     */
    public Key(byte[] row) {
        this(row, Bytes.NONE, Bytes.NONE, Bytes.NONE, Long.MAX_VALUE, false, true);
    }

    /**
     * A key of copied bytes, whose other parts are empty, with the greatest timestamp.
     *
     * @param row the row
     * @param family the family
     */
    public Key(byte[] row, byte[] family) {
        this(row, family, Bytes.NONE, Bytes.NONE, Long.MAX_VALUE, false, true);
    }

    /**
     * A key of copied bytes, whose other parts are empty, with the greatest timestamp.
     *
     * @param row the row
     * @param family the family
     * @param qualifier the qualifier
     */
    public Key(byte[] row, byte[] family, byte[] qualifier) {
        this(row, family, qualifier, Bytes.NONE, Long.MAX_VALUE, false, true);
    }

    /**
     * A key of copied bytes, with the greatest timestamp.
     *
     * @param row the row
     * @param family the family
     * @param qualifier the qualifier
     * @param visibility the label
     */
    public Key(byte[] row, byte[] family, byte[] qualifier, byte[] visibility) {
        this(row, family, qualifier, visibility, Long.MAX_VALUE, false, true);
    }

    /**
     * A key of copied bytes.
     *
     * @param row the row
     * @param family the family
     * @param qualifier the qualifier
     * @param visibility the label
     * @param timestamp the time
     */
    public Key(byte[] row, byte[] family, byte[] qualifier, byte[] visibility, long timestamp) {
        this(row, family, qualifier, visibility, timestamp, false, true);
    }

    /**
     * A key of copied bytes.
     *
     * @param row the row
     * @param family the family
     * @param qualifier the qualifier
     * @param visibility the label
     * @param timestamp the time
     */
    public Key(byte[] row, byte[] family, byte[] qualifier, ColumnVisibility visibility, long timestamp) {
        this(row, family, qualifier, visibility.getExpression(), timestamp, false, true);
    }

    /** {@return what builds a key, part by part} */
    public static KeyBuilder builder() {
        return new KeyBuilder();
    }

    /**
     * Becomes the same key.
     *
     * @param other another key
     */
    public void set(Key other) {
        row = other.row;
        family = other.family;
        qualifier = other.qualifier;
        visibility = other.visibility;
        timestamp = other.timestamp;
        deleted = other.deleted;
    }

    /**
     * The row.
     *
     * @return a copy
     */
    public Text getRow() {
        return getRow(new Text());
    }

    /**
     * Puts the row into a text.
     *
     * @param to the text
     * @return the text
     */
    public Text getRow(Text to) {
        to.set(row);
        return to;
    }

    /**
     * The bytes of the row.
     *
     * @return the bytes themselves
     */
    public ByteSequence getRowData() {
        return new ArrayByteSequence(row);
    }

    /**
     * Compares the row with a text.
     *
     * @param other the text
     * @return below, at or above 0
     */
    public int compareRow(Text other) {
        return Arrays.compareUnsigned(row, 0, row.length, other.getBytes(), 0, other.getLength());
    }

    /**
     * The family.
     *
     * @return a copy
     */
    public Text getColumnFamily() {
        return getColumnFamily(new Text());
    }

    /**
     * Puts the family into a text.
     *
     * @param to the text
     * @return the text
     */
    public Text getColumnFamily(Text to) {
        to.set(family);
        return to;
    }

    /**
     * The bytes of the family.
     *
     * @return the bytes themselves
     */
    public ByteSequence getColumnFamilyData() {
        return new ArrayByteSequence(family);
    }

    /**
     * Compares the family with a text.
     *
     * @param other the text
     * @return below, at or above 0
     */
    public int compareColumnFamily(Text other) {
        return Arrays.compareUnsigned(family, 0, family.length, other.getBytes(), 0, other.getLength());
    }

    /**
     * The qualifier.
     *
     * @return a copy
     */
    public Text getColumnQualifier() {
        return getColumnQualifier(new Text());
    }

    /**
     * Puts the qualifier into a text.
     *
     * @param to the text
     * @return the text
     */
    public Text getColumnQualifier(Text to) {
        to.set(qualifier);
        return to;
    }

    /**
     * The bytes of the qualifier.
     *
     * @return the bytes themselves
     */
    public ByteSequence getColumnQualifierData() {
        return new ArrayByteSequence(qualifier);
    }

    /**
     * Compares the qualifier with a text.
     *
     * @param other the text
     * @return below, at or above 0
     */
    public int compareColumnQualifier(Text other) {
        return Arrays.compareUnsigned(qualifier, 0, qualifier.length, other.getBytes(), 0, other.getLength());
    }

    /**
     * The label.
     *
     * @return a copy
     */
    public Text getColumnVisibility() {
        return getColumnVisibility(new Text());
    }

    /**
     * Puts the label into a text.
     *
     * @param to the text
     * @return the text
     */
    public Text getColumnVisibility(Text to) {
        to.set(visibility);
        return to;
    }

    /**
     * The bytes of the label.
     *
     * @return the bytes themselves
     */
    public ByteSequence getColumnVisibilityData() {
        return new ArrayByteSequence(visibility);
    }

    /**
     * The label, understood.
     *
     * @return the label
     */
    public ColumnVisibility getColumnVisibilityParsed() {
        return new ColumnVisibility(visibility);
    }

    /**
     * The time.
     *
     * @return the timestamp
     */
    public long getTimestamp() {
        return timestamp;
    }

    /**
     * Changes the time.
     *
     * @param timestamp the new timestamp
     */
    public void setTimestamp(long timestamp) {
        this.timestamp = timestamp;
    }

    /**
     * Whether it is a marker's, which no scan shows.
     *
     * @return whether it is deleted
     */
    public boolean isDeleted() {
        return deleted;
    }

    /**
     * Changes whether it is a marker's.
     *
     * @param deleted whether it is
     */
    public void setDeleted(boolean deleted) {
        this.deleted = deleted;
    }

    /**
     * How many bytes row, family, qualifier and label have together.
     *
     * @return the count
     */
    public int getLength() {
        return row.length + family.length + qualifier.length + visibility.length;
    }

    /**
     * How many bytes it takes with its timestamp.
     *
     * @return the count
     */
    public int getSize() {
        return getLength() + Long.BYTES + 1;
    }

    /**
     * The least key above all keys that have these parts of this one.
     *
     * @param part how many parts
     * @return a new key
     */
    public Key followingKey(PartialKey part) {
        return switch (part) {
            case ROW -> new Key(Bytes.following(row), Bytes.NONE, Bytes.NONE, Bytes.NONE, Long.MAX_VALUE, false, false);
            case ROW_COLFAM -> new Key(row, Bytes.following(family), Bytes.NONE, Bytes.NONE, Long.MAX_VALUE, false, false);
            case ROW_COLFAM_COLQUAL -> new Key(row, family, Bytes.following(qualifier), Bytes.NONE, Long.MAX_VALUE, false, false);
            case ROW_COLFAM_COLQUAL_COLVIS -> new Key(row, family, qualifier, Bytes.following(visibility), Long.MAX_VALUE, false, false);
            case ROW_COLFAM_COLQUAL_COLVIS_TIME -> new Key(row, family, qualifier, visibility, timestamp - 1, false, false);
            case ROW_COLFAM_COLQUAL_COLVIS_TIME_DEL ->
                    new Key(row, family, qualifier, visibility, deleted ? timestamp : timestamp - 1, !deleted, false);
        };
    }

    /**
     * Whether it has these parts of another key.
     *
     * @param other the other key
     * @param part how many parts
     * @return whether they are equal
     */
    public boolean equals(Key other, PartialKey part) {
        return compareTo(other, part) == 0;
    }

    @Override
    public boolean equals(Object other) {
        return other instanceof Key key && equals(key, PartialKey.ROW_COLFAM_COLQUAL_COLVIS_TIME_DEL);
    }

    @Override
    public int hashCode() {
        int parts = Arrays.hashCode(row) + Arrays.hashCode(family) + Arrays.hashCode(qualifier) + Arrays.hashCode(visibility);
        return parts + Long.hashCode(timestamp);
    }

    @Override
    public int compareTo(Key other) {
        return compareTo(other, PartialKey.ROW_COLFAM_COLQUAL_COLVIS_TIME_DEL);
    }

    /**
     * Compares parts of two keys: unsigned bytes rising, the timestamp falling, a marker before a put.
     *
     * @param other the other key
     * @param part how many parts
     * @return below, at or above 0
     */
    public int compareTo(Key other, PartialKey part) {
        int depth = part.getDepth();
        int found = Arrays.compareUnsigned(row, other.row);
        if (found == 0 && depth > 1) {
            found = Arrays.compareUnsigned(family, other.family);
        }
        if (found == 0 && depth > 2) {
            found = Arrays.compareUnsigned(qualifier, other.qualifier);
        }
        if (found == 0 && depth > 3) {
            found = Arrays.compareUnsigned(visibility, other.visibility);
        }
        if (found == 0 && depth > 4) {
            found = Long.compare(other.timestamp, timestamp);
        }
        if (found == 0 && depth > 5) {
            found = Boolean.compare(other.deleted, deleted);
        }
        return found;
    }

    @Override
    public Key clone() {
        return new Key(this);
    }

    /** The key as {@code row family:qualifier [label] timestamp deleted}. */
    @Override
    public String toString() {
        return toStringNoTime() + " " + timestamp + " " + deleted;
    }

    /**
     * The key without its time.
     *
     * @return the key as {@code row family:qualifier [label]}
     */
    public String toStringNoTime() {
        StringBuilder text = new StringBuilder();
        Bytes.show(text, row).append(' ');
        Bytes.show(text, family).append(':');
        Bytes.show(text, qualifier).append(" [");
        return Bytes.show(text, visibility).append(']').toString();
    }
}
