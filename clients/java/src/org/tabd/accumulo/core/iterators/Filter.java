package org.tabd.accumulo.core.iterators;

import java.util.Map;
import org.tabd.accumulo.core.client.IteratorSetting;
import org.tabd.accumulo.core.data.Key;
import org.tabd.accumulo.core.data.Value;

/** Leaves cells out of what a scanner shows. It runs in the client, behind all that the server leaves out. */
public abstract class Filter {
    private static final String NEGATE = "negate";

    private final boolean negated;

    /**
     * A filter of these options.
     *
     * @param options the options
     */
    protected Filter(Map<String, String> options) {
        negated = Boolean.parseBoolean(options.get(NEGATE));
    }

    /**
     * Whether a cell is shown, where the filter isn't negated.
     *
     * @param key its key
     * @param value its value
     * @return whether it is
     */
    public abstract boolean accept(Key key, Value value);

    /**
     * Whether it shows or leaves out all versions of a column together, whatever their times and values.
     *
     * @return whether it makes no difference that it sees only the versions that the table shows
     */
    public boolean isOfColumns() {
        return false;
    }

    /**
     * Whether a cell is shown.
     *
     * @param key its key
     * @param value its value
     * @return whether it is
     */
    public final boolean shows(Key key, Value value) {
        return accept(key, value) != negated;
    }

    /**
     * Lets a filter show what it would leave out, and nothing else.
     *
     * @param setting the filter
     * @param negate whether it is to
     */
    public static void setNegate(IteratorSetting setting, boolean negate) {
        setting.addOption(NEGATE, Boolean.toString(negate));
    }
}
