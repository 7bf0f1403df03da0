package org.tabd.accumulo.core.client.admin;

import java.util.List;
import java.util.Map;
import org.tabd.accumulo.core.client.IteratorSetting;
import org.tabd.hadoop.io.Text;

/** How a table is compacted: always whole and with what is in memory, and it is waited for. */
public class CompactionConfig {
    private Text startRow;
    private Text endRow;
    private boolean flush = true;
    private boolean wait = true;

    /** All of the table. */
    public CompactionConfig() {}

    /**
     * Says behind which row it begins.
     *
     * @param startRow ignored: it is done for the whole table
     * @return this
     */
    public CompactionConfig setStartRow(Text startRow) {
        this.startRow = startRow;
        return this;
    }

    /** {@return what was said} */
    public Text getStartRow() {
        return startRow;
    }

    /**
     * Says at which row it ends.
     *
     * @param endRow ignored: it is done for the whole table
     * @return this
     */
    public CompactionConfig setEndRow(Text endRow) {
        this.endRow = endRow;
        return this;
    }

    /** {@return what was said} */
    public Text getEndRow() {
        return endRow;
    }

    /**
     * Says whether what is in memory is merged too.
     *
     * @param flush ignored: it is
     * @return this
     */
    public CompactionConfig setFlush(boolean flush) {
        this.flush = flush;
        return this;
    }

    /** {@return what was said} */
    public boolean getFlush() {
        return flush;
    }

    /**
     * Says whether it is waited for.
     *
     * @param wait ignored: it is
     * @return this
     */
    public CompactionConfig setWait(boolean wait) {
        this.wait = wait;
        return this;
    }

    /** {@return what was said} */
    public boolean getWait() {
        return wait;
    }

    /**
     * Says which iterators it runs.
     *
     * @param iterators none
     * @return this
     * @throws UnsupportedOperationException if there are any
     */
    public CompactionConfig setIterators(List<IteratorSetting> iterators) {
        if (!iterators.isEmpty()) {
            throw new UnsupportedOperationException("setIterators: a compaction runs no iterators but those that a server always runs");
        }
        return this;
    }

    /** {@return none} */
    public List<IteratorSetting> getIterators() {
        return List.of();
    }

    /**
     * Isn't there.
     *
     * @param hints isn't looked at
     * @return never
     * @throws UnsupportedOperationException always
     */
    public CompactionConfig setExecutionHints(Map<String, String> hints) {
        throw new UnsupportedOperationException("setExecutionHints: a server takes no hints where it compacts");
    }
}
