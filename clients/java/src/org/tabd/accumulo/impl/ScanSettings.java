package org.tabd.accumulo.impl;

import java.lang.ref.WeakReference;
import java.time.Duration;
import java.util.ArrayList;
import java.util.Comparator;
import java.util.LinkedHashMap;
import java.util.LinkedHashSet;
import java.util.List;
import java.util.Map;
import java.util.Set;
import java.util.concurrent.TimeUnit;
import java.util.function.Function;
import org.tabd.accumulo.core.client.IteratorSetting;
import org.tabd.accumulo.core.client.ScannerBase;
import org.tabd.accumulo.core.iterators.Filter;
import org.tabd.accumulo.core.iterators.user.GrepIterator;
import org.tabd.accumulo.core.iterators.user.RegExFilter;
import org.tabd.accumulo.core.iterators.user.TimestampFilter;
import org.tabd.accumulo.core.security.Authorizations;
import org.tabd.hadoop.io.Text;
import org.tabd.protocol.Column;

/** What both kinds of scanners are told. */
abstract class ScanSettings implements ScannerBase {
    /** At which priority Accumulo leaves versions out. */
    private static final int VERSIONING = 20;
    private static final String THERE = "org.apache.accumulo.";
    private static final String HERE = "org.tabd.accumulo.";
    private static final Map<String, Function<Map<String, String>, Filter>> FILTERS = Map.of(
            RegExFilter.class.getName(), RegExFilter::new,
            GrepIterator.class.getName(), GrepIterator::new,
            TimestampFilter.class.getName(), TimestampFilter::new);

    /** The text of a family and perhaps a qualifier, as a set has it once. */
    private record Wanted(Text family, Text qualifier) {
        Column column() {
            return new Column(family.copyBytes(), qualifier == null ? null : qualifier.copyBytes());
        }
    }

    private final Link link;
    private final String table;
    private final Authorizations authorizations;
    private final Set<Wanted> columns = new LinkedHashSet<>();
    private final Map<String, IteratorSetting> iterators = new LinkedHashMap<>();
    private final List<WeakReference<Cells>> open = new ArrayList<>();
    private Duration timeout = Duration.ZERO;

    ScanSettings(Link link, String table, Authorizations authorizations) {
        this.link = link;
        this.table = table;
        this.authorizations = authorizations;
    }

    /** What a scan is asked now. */
    final Scan scan() {
        List<Filter> filters = iterators.values().stream()
                .sorted(Comparator.comparingInt(IteratorSetting::getPriority))
                .map(ScanSettings::filter).toList();
        return new Scan(table, authorizations.getAuthorizations(), columns.stream().map(Wanted::column).toList(), filters);
    }

    final Link link() {
        return link;
    }

    final Duration timeout() {
        return timeout;
    }

    /** Lets the cells be closed with the scanner. */
    final <T extends Cells> T kept(T cells) {
        open.removeIf(it -> it.get() == null);
        open.add(new WeakReference<>(cells));
        return cells;
    }

    @Override
    public void close() {
        for (WeakReference<Cells> it : open) {
            Cells cells = it.get();
            if (cells != null) {
                cells.close();
            }
        }
        open.clear();
    }

    @Override
    public void addScanIterator(IteratorSetting setting) {
        demandFits(setting);
        if (iterators.containsKey(setting.getName())) {
            throw new IllegalArgumentException("Iterator name is already in use " + setting.getName());
        }
        if (iterators.values().stream().anyMatch(it -> it.getPriority() == setting.getPriority())) {
            throw new IllegalArgumentException("Iterator priority is already in use " + setting.getPriority());
        }
        iterators.put(setting.getName(), copy(setting));
    }

    /** The filter of a setting, whose class may have its name in Accumulo. */
    private static Filter filter(IteratorSetting setting) {
        String name = setting.getIteratorClass();
        Function<Map<String, String>, Filter> filter = FILTERS.get(name.startsWith(THERE) ? HERE + name.substring(THERE.length()) : name);
        if (filter == null) {
            throw new UnsupportedOperationException("addScanIterator: a server runs no iterators but those that it always runs, and "
                    + "a client only RegExFilter, GrepIterator and TimestampFilter; not " + name);
        }
        return filter.apply(setting.getOptions());
    }

    /** Demands a filter whose options are such, and which shows the same cells behind versions as at its place in Accumulo. */
    private static void demandFits(IteratorSetting setting) {
        if (!filter(setting).isOfColumns() && setting.getPriority() < VERSIONING) {
            throw new UnsupportedOperationException("addScanIterator: a filter here sees only the versions that the table shows; priority "
                    + setting.getPriority() + " would come before them");
        }
    }

    private static IteratorSetting copy(IteratorSetting setting) {
        return new IteratorSetting(setting.getPriority(), setting.getName(), setting.getIteratorClass(), setting.getOptions());
    }

    @Override
    public void removeScanIterator(String name) {
        iterators.remove(name);
    }

    @Override
    public void updateScanIteratorOption(String name, String key, String value) {
        IteratorSetting setting = iterators.get(name);
        if (setting == null) {
            throw new IllegalArgumentException("there is no filter " + name);
        }
        IteratorSetting changed = copy(setting);
        changed.addOption(key, value);
        demandFits(changed);
        iterators.put(name, changed);
    }

    @Override
    public void clearScanIterators() {
        iterators.clear();
    }

    @Override
    public void fetchColumnFamily(Text family) {
        columns.add(new Wanted(new Text(family), null));
    }

    @Override
    public void fetchColumn(Text family, Text qualifier) {
        columns.add(new Wanted(new Text(family), new Text(qualifier)));
    }

    @Override
    public void clearColumns() {
        columns.clear();
    }

    @Override
    public void setTimeout(long count, TimeUnit unit) {
        if (count < 0) {
            throw new IllegalArgumentException("TimeOut must be positive : " + count);
        }
        timeout = count == 0 || count == Long.MAX_VALUE ? Duration.ZERO : Duration.ofMillis(Math.max(1, unit.toMillis(count)));
    }

    @Override
    public long getTimeout(TimeUnit unit) {
        return timeout.isZero() ? Long.MAX_VALUE : unit.convert(timeout.toMillis(), TimeUnit.MILLISECONDS);
    }

    @Override
    public Authorizations getAuthorizations() {
        return authorizations;
    }
}
