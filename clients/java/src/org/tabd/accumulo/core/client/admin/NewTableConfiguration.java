package org.tabd.accumulo.core.client.admin;

import java.util.List;
import java.util.Map;
import java.util.SortedSet;
import java.util.TreeSet;
import org.tabd.hadoop.io.Text;

/** How a table is made: with the writers' times and one version of each column, unless told otherwise. */
public class NewTableConfiguration {
    private static final String SCANS = "table.iterator.scan.vers.opt.maxVersions";
    private static final String MINOR = "table.iterator.minc.vers.opt.maxVersions";
    private static final String MAJOR = "table.iterator.majc.vers.opt.maxVersions";

    private final SortedSet<Text> splits = new TreeSet<>();
    private int versions = 1;
    private boolean serverTime;

    /** The writers' times and one version of each column. */
    public NewTableConfiguration() {}

    /**
     * Shows so many versions of each column.
     *
     * @param versions the count, 1 to 1,000
     * @return this
     */
    public NewTableConfiguration setVersions(int versions) {
        if (versions < 1 || versions > 1000) {
            throw new IllegalArgumentException("a table shows 1 to 1,000 versions, and not " + versions);
        }
        this.versions = versions;
        return this;
    }

    /**
     * Lets the server give all times, and refuse those of writers. Accumulo has no such tables.
     *
     * @return this
     */
    public NewTableConfiguration setServerTime() {
        serverTime = true;
        return this;
    }

    /**
     * Says what gives times.
     *
     * @param timeType {@link TimeType#MILLIS}
     * @return this
     * @throws UnsupportedOperationException for {@link TimeType#LOGICAL}
     */
    public NewTableConfiguration setTimeType(TimeType timeType) {
        if (timeType == TimeType.LOGICAL) {
            throw new UnsupportedOperationException("setTimeType(LOGICAL): a server's times are milliseconds");
        }
        return this;
    }

    /**
     * Isn't there.
     *
     * @return never
     * @throws UnsupportedOperationException always
     */
    public NewTableConfiguration withoutDefaultIterators() {
        throw new UnsupportedOperationException(
                "withoutDefaultIterators: each table shows at most 1,000 versions of a column; see setVersions");
    }

    /**
     * Sets properties: those of Accumulo that say how many versions are shown. One that isn't given is 1 then, as in Accumulo.
     *
     * @param properties {@code table.iterator.scan.vers.opt.maxVersions}, and the same of {@code minc} and {@code majc}
     * @return this
     * @throws UnsupportedOperationException for any other one
     * @throws IllegalArgumentException if they differ, which loses versions when Accumulo compacts
     */
    public NewTableConfiguration setProperties(Map<String, String> properties) {
        for (String property : properties.keySet()) {
            if (!List.of(SCANS, MINOR, MAJOR).contains(property)) {
                throw new UnsupportedOperationException("setProperties: a server has no property " + property);
            }
        }
        if (properties.isEmpty()) {
            return this;
        }
        int scans = Integer.parseInt(properties.getOrDefault(SCANS, "1"));
        demandSame(scans, Integer.parseInt(properties.getOrDefault(MAJOR, "1")), "major");
        demandSame(scans, Integer.parseInt(properties.getOrDefault(MINOR, "1")), "minor");
        return setVersions(scans);
    }

    private static void demandSame(int scans, int compactions, String kind) {
        if (scans != compactions) {
            throw new IllegalArgumentException("a table has one number of versions, and not " + scans + " in scans and " + compactions
                    + " in " + kind + " compactions");
        }
    }

    /**
     * Splits the table at these rows.
     *
     * @param splits the rows
     * @return this
     */
    public NewTableConfiguration withSplits(SortedSet<Text> splits) {
        this.splits.addAll(splits);
        return this;
    }

    /**
     * At which rows it is split.
     *
     * @return the rows
     */
    public SortedSet<Text> getSplits() {
        return new TreeSet<>(splits);
    }

    /**
     * How many versions are shown.
     *
     * @return the count
     */
    public int getVersions() {
        return versions;
    }

    /**
     * What gives times.
     *
     * @return {@link TimeType#MILLIS}
     */
    public TimeType getTimeType() {
        return TimeType.MILLIS;
    }

    /**
     * Whether the server gives all times.
     *
     * @return whether it does
     */
    public boolean isServerTime() {
        return serverTime;
    }
}
