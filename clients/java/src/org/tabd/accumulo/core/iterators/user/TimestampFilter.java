package org.tabd.accumulo.core.iterators.user;

import java.util.Map;
import org.tabd.accumulo.core.client.IteratorSetting;
import org.tabd.accumulo.core.data.Key;
import org.tabd.accumulo.core.data.Value;
import org.tabd.accumulo.core.iterators.Filter;

/** Shows cells whose timestamps lie between two times. Times as dates in text aren't taken. */
public class TimestampFilter extends Filter {
    private static final String START = "start";
    private static final String END = "end";
    private static final String INCLUSIVE = "Inclusive";

    private final long start;
    private final boolean withStart;
    private final long end;
    private final boolean withEnd;

    /**
     * A filter of these options.
     *
     * @param options the options, as {@link #setStart} and {@link #setEnd} set them
     */
    public TimestampFilter(Map<String, String> options) {
        super(options);
        start = Long.parseLong(options.getOrDefault(START, "" + Long.MIN_VALUE));
        withStart = Boolean.parseBoolean(options.getOrDefault(START + INCLUSIVE, "true"));
        end = Long.parseLong(options.getOrDefault(END, "" + Long.MAX_VALUE));
        withEnd = Boolean.parseBoolean(options.getOrDefault(END + INCLUSIVE, "true"));
    }

    @Override
    public boolean accept(Key key, Value value) {
        long time = key.getTimestamp();
        return (withStart ? time >= start : time > start) && (withEnd ? time <= end : time < end);
    }

    /**
     * Sets the first time.
     *
     * @param setting the filter
     * @param start the time
     * @param startInclusive whether cells of it are shown
     */
    public static void setStart(IteratorSetting setting, long start, boolean startInclusive) {
        setting.addOption(START, Long.toString(start));
        setting.addOption(START + INCLUSIVE, Boolean.toString(startInclusive));
    }

    /**
     * Sets the last time.
     *
     * @param setting the filter
     * @param end the time
     * @param endInclusive whether cells of it are shown
     */
    public static void setEnd(IteratorSetting setting, long end, boolean endInclusive) {
        setting.addOption(END, Long.toString(end));
        setting.addOption(END + INCLUSIVE, Boolean.toString(endInclusive));
    }

    /**
     * Sets both times, of which cells are shown.
     *
     * @param setting the filter
     * @param start the first time
     * @param end the last time
     */
    public static void setRange(IteratorSetting setting, long start, long end) {
        setRange(setting, start, true, end, true);
    }

    /**
     * Sets both times.
     *
     * @param setting the filter
     * @param start the first time
     * @param startInclusive whether cells of it are shown
     * @param end the last time
     * @param endInclusive whether cells of it are shown
     */
    public static void setRange(IteratorSetting setting, long start, boolean startInclusive, long end, boolean endInclusive) {
        setStart(setting, start, startInclusive);
        setEnd(setting, end, endInclusive);
    }
}
