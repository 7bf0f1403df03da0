package org.tabd.accumulo.core.data;

import org.tabd.accumulo.core.security.ColumnVisibility;
import org.tabd.hadoop.io.Text;

/** Builds a key, part by part; those that aren't set are empty, and the timestamp is the greatest. */
public final class KeyBuilder {
    private byte[] row = Bytes.NONE;
    private byte[] family = Bytes.NONE;
    private byte[] qualifier = Bytes.NONE;
    private byte[] visibility = Bytes.NONE;
    private long timestamp = Long.MAX_VALUE;
    private boolean deleted;

    KeyBuilder() {}

    /**
     * Sets the row.
     *
     * @param row the row
     * @return this
     */
    public KeyBuilder row(byte[] row) {
        this.row = row.clone();
        return this;
    }

    /**
     * Sets the row.
     *
     * @param row the row, as UTF-8
     * @return this
     */
    public KeyBuilder row(CharSequence row) {
        this.row = Bytes.of(row);
        return this;
    }

    /**
     * Sets the row.
     *
     * @param row the row
     * @return this
     */
    public KeyBuilder row(Text row) {
        this.row = Bytes.of(row);
        return this;
    }

    /**
     * Sets the family.
     *
     * @param family the family
     * @return this
     */
    public KeyBuilder family(byte[] family) {
        this.family = family.clone();
        return this;
    }

    /**
     * Sets the family.
     *
     * @param family the family, as UTF-8
     * @return this
     */
    public KeyBuilder family(CharSequence family) {
        this.family = Bytes.of(family);
        return this;
    }

    /**
     * Sets the family.
     *
     * @param family the family
     * @return this
     */
    public KeyBuilder family(Text family) {
        this.family = Bytes.of(family);
        return this;
    }

    /**
     * Sets the qualifier.
     *
     * @param qualifier the qualifier
     * @return this
     */
    public KeyBuilder qualifier(byte[] qualifier) {
        this.qualifier = qualifier.clone();
        return this;
    }

    /**
     * Sets the qualifier.
     *
     * @param qualifier the qualifier, as UTF-8
     * @return this
     */
    public KeyBuilder qualifier(CharSequence qualifier) {
        this.qualifier = Bytes.of(qualifier);
        return this;
    }

    /**
     * Sets the qualifier.
     *
     * @param qualifier the qualifier
     * @return this
     */
    public KeyBuilder qualifier(Text qualifier) {
        this.qualifier = Bytes.of(qualifier);
        return this;
    }

    /**
     * Sets the label.
     *
     * @param visibility the label
     * @return this
     */
    public KeyBuilder visibility(byte[] visibility) {
        this.visibility = visibility.clone();
        return this;
    }

    /**
     * Sets the label.
     *
     * @param visibility the label, as UTF-8
     * @return this
     */
    public KeyBuilder visibility(CharSequence visibility) {
        this.visibility = Bytes.of(visibility);
        return this;
    }

    /**
     * Sets the label.
     *
     * @param visibility the label
     * @return this
     */
    public KeyBuilder visibility(Text visibility) {
        this.visibility = Bytes.of(visibility);
        return this;
    }

    /**
     * Sets the label.
     *
     * @param visibility the label
     * @return this
     */
    public KeyBuilder visibility(ColumnVisibility visibility) {
        this.visibility = visibility.getExpression();
        return this;
    }

    /**
     * Sets the time.
     *
     * @param timestamp the time
     * @return this
     */
    public KeyBuilder timestamp(long timestamp) {
        this.timestamp = timestamp;
        return this;
    }

    /**
     * Says whether it is a marker's.
     *
     * @param deleted whether it is
     * @return this
     */
    public KeyBuilder deleted(boolean deleted) {
        this.deleted = deleted;
        return this;
    }

    /** {@return the key} */
    public Key build() {
        return new Key(row, family, qualifier, visibility, timestamp, deleted, false);
    }
}
