package org.tabd.protocol;

import java.util.List;

/**
 * The cells of a session that came next.
 *
 * @param cells the cells, in the order of keys
 * @param more whether there may be more: there are as many cells as were asked for
 */
public record Batch(List<Cell> cells, boolean more) {}
