package org.tabd.accumulo.core.iterators.user;

import java.nio.charset.StandardCharsets;
import java.util.Arrays;
import java.util.Map;
import org.tabd.accumulo.core.client.IteratorSetting;
import org.tabd.accumulo.core.data.Key;
import org.tabd.accumulo.core.data.Value;
import org.tabd.accumulo.core.iterators.Filter;

/** Shows cells that have a term in row, family, qualifier or value. */
public class GrepIterator extends Filter {
    private final byte[] term;

    /**
     * A filter of these options.
     *
     * @param options the options, as {@link #setTerm} sets them
     */
    public GrepIterator(Map<String, String> options) {
        super(options);
        if (!options.containsKey("term")) {
            throw new IllegalArgumentException("GrepIterator has no option term");
        }
        term = options.get("term").getBytes(StandardCharsets.UTF_8);
    }

    @Override
    public boolean accept(Key key, Value value) {
        return has(value.get()) || has(key.getRowData().getBackingArray()) || has(key.getColumnFamilyData().getBackingArray())
                || has(key.getColumnQualifierData().getBackingArray());
    }

    private boolean has(byte[] text) {
        for (int from = 0; from + term.length <= text.length; from++) {
            if (Arrays.equals(text, from, from + term.length, term, 0, term.length)) {
                return true;
            }
        }
        return false;
    }

    /**
     * Sets the term.
     *
     * @param setting the filter
     * @param term the term, as UTF-8
     */
    public static void setTerm(IteratorSetting setting, String term) {
        setting.addOption("term", term);
    }
}
