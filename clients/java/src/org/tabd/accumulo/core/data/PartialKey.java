package org.tabd.accumulo.core.data;

/** How many parts of keys are compared, from the front. */
public enum PartialKey {
    /** The row. */
    ROW(1),
    /** Row and family. */
    ROW_COLFAM(2),
    /** Row, family and qualifier. */
    ROW_COLFAM_COLQUAL(3),
    /** Row, family, qualifier and label. */
    ROW_COLFAM_COLQUAL_COLVIS(4),
    /** All but whether it is deleted. */
    ROW_COLFAM_COLQUAL_COLVIS_TIME(5),
    /** All parts. */
    ROW_COLFAM_COLQUAL_COLVIS_TIME_DEL(6);

    private final int depth;

    PartialKey(int depth) {
        this.depth = depth;
    }

    /**
     * The one of so many parts.
     *
     * @param depth how many, 1 to 6
     * @return that one
     */
    public static PartialKey getByDepth(int depth) {
        if (depth < 1 || depth > values().length) {
            throw new IllegalArgumentException("Invalid legacy depth " + depth);
        }
        return values()[depth - 1];
    }

    /**
     * How many parts it has.
     *
     * @return 1 to 6
     */
    public int getDepth() {
        return depth;
    }
}
