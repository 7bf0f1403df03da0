package org.tabd.accumulo.core.client;

import java.util.Collection;
import org.tabd.accumulo.core.data.Range;

/** Stands for Accumulo's scan whose cells are deleted by the server, which a server has no request for. None is ever made. */
public interface BatchDeleter extends ScannerBase {
    /**
     * Isn't there: a server deletes no ranges; scan, and write deletes.
     *
     * @throws UnsupportedOperationException always
     */
    default void delete() {
        throw new UnsupportedOperationException("delete: a server deletes no ranges; scan, and write deletes");
    }

    /**
     * Isn't there: a server deletes no ranges; scan, and write deletes.
     *
     * @param ranges isn't looked at
     * @throws UnsupportedOperationException always
     */
    default void setRanges(Collection<Range> ranges) {
        throw new UnsupportedOperationException("setRanges: a server deletes no ranges; scan, and write deletes");
    }
}
