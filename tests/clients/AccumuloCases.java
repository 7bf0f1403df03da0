import java.io.DataInputStream;
import java.io.IOException;
import java.net.ServerSocket;
import java.net.Socket;
import java.nio.charset.StandardCharsets;
import java.nio.file.Files;
import java.nio.file.Path;
import java.time.Duration;
import java.util.ArrayList;
import java.util.EnumSet;
import java.util.HashMap;
import java.util.Iterator;
import java.util.List;
import java.util.Map;
import java.util.Objects;
import java.util.Set;
import java.util.TreeSet;
import java.util.concurrent.Callable;
import java.util.concurrent.ExecutorService;
import java.util.concurrent.Executors;
import java.util.concurrent.Future;
import java.util.concurrent.TimeUnit;
import java.util.regex.Matcher;
import java.util.regex.Pattern;
import java.util.stream.Collectors;
import org.tabd.accumulo.Tabd;
import org.tabd.accumulo.core.client.AccumuloClient;
import org.tabd.accumulo.core.client.AccumuloException;
import org.tabd.accumulo.core.client.AccumuloSecurityException;
import org.tabd.accumulo.core.client.BatchScanner;
import org.tabd.accumulo.core.client.BatchWriter;
import org.tabd.accumulo.core.client.BatchWriterConfig;
import org.tabd.accumulo.core.client.Durability;
import org.tabd.accumulo.core.client.IsolatedScanner;
import org.tabd.accumulo.core.client.IteratorSetting;
import org.tabd.accumulo.core.client.MultiTableBatchWriter;
import org.tabd.accumulo.core.client.MutationsRejectedException;
import org.tabd.accumulo.core.client.Scanner;
import org.tabd.accumulo.core.client.ScannerBase;
import org.tabd.accumulo.core.client.TableExistsException;
import org.tabd.accumulo.core.client.TableNotFoundException;
import org.tabd.accumulo.core.client.TimedOutException;
import org.tabd.accumulo.core.client.admin.CompactionConfig;
import org.tabd.accumulo.core.client.admin.NewTableConfiguration;
import org.tabd.accumulo.core.client.admin.TimeType;
import org.tabd.accumulo.core.client.security.SecurityErrorCode;
import org.tabd.accumulo.core.client.security.tokens.PasswordToken;
import org.tabd.accumulo.core.data.ColumnUpdate;
import org.tabd.accumulo.core.data.Key;
import org.tabd.accumulo.core.data.Mutation;
import org.tabd.accumulo.core.data.PartialKey;
import org.tabd.accumulo.core.data.Range;
import org.tabd.accumulo.core.data.Value;
import org.tabd.accumulo.core.iterators.Filter;
import org.tabd.accumulo.core.iterators.user.GrepIterator;
import org.tabd.accumulo.core.iterators.user.RegExFilter;
import org.tabd.accumulo.core.iterators.user.TimestampFilter;
import org.tabd.accumulo.core.security.Authorizations;
import org.tabd.accumulo.core.security.ColumnVisibility;
import org.tabd.accumulo.core.security.SystemPermission;
import org.tabd.accumulo.core.security.TablePermission;
import org.tabd.accumulo.core.security.VisibilityEvaluator;
import org.tabd.accumulo.core.util.BadArgumentException;
import org.tabd.hadoop.io.Text;
import org.tabd.protocol.Address;
import org.tabd.protocol.Cell;
import org.tabd.protocol.Column;
import org.tabd.protocol.Connection;
import org.tabd.protocol.ConnectionClosedException;
import org.tabd.protocol.Constraint;
import org.tabd.protocol.Permission;
import org.tabd.protocol.ProtocolException;
import org.tabd.protocol.Request;
import org.tabd.protocol.Rights;
import org.tabd.protocol.RowRange;
import org.tabd.protocol.ServerTimeoutException;

/**
 * What Accumulo's own tests and its manual say of labels, keys, ranges, scans, deletes, writers and users, by the client in Java. Usage:
 * AccumuloCases PORT FILE   (a new server, and accumulo.txt)
 */
public final class AccumuloCases {
    private static final Pattern LABELS = Pattern.compile("(\\w+) \\|(.*?)\\|(?: \\|(.*)\\|)?");
    private static int passed;
    private static int failed;
    private static int number;

    /** What may throw anything. */
    @FunctionalInterface
    private interface Doing {
        void run() throws Exception;
    }

    private final AccumuloClient root;
    private final int port;

    private AccumuloCases(int port) {
        this.port = port;
        root = client("root");
    }

    public static void main(String[] words) throws Exception {
        AccumuloCases cases = new AccumuloCases(Integer.parseInt(words[0]));
        part("labels", () -> cases.labels(Path.of(words[1])));
        part("keys", AccumuloCases::keys);
        part("texts", AccumuloCases::texts);
        part("ranges", AccumuloCases::ranges);
        part("mutations", AccumuloCases::mutations);
        part("versions and deletes", cases::versions);
        part("ranges of scans", cases::scans);
        part("ranges inside of rows", cases::cuts);
        part("many ranges", cases::batches);
        part("authorizations", cases::authorizations);
        part("writers", cases::writers);
        part("tables", cases::tables);
        part("users", cases::users);
        part("filters", cases::filters);
        part("moments", cases::moments);
        part("threads", cases::threads);
        part("connections that break", cases::breaks);
        part("what isn't there", cases::absent);
        cases.root.close();
        System.out.println(passed + " passed, " + failed + " failed");
        System.exit(failed == 0 ? 0 : 1);
    }

    // ---- Counting.

    private static void part(String name, Doing part) {
        try {
            part.run();
        } catch (Exception | Error fault) {
            count(name, false, fault);
            fault.printStackTrace(System.out);
        }
    }

    private static void count(String name, boolean good, Object told) {
        if (good) {
            passed++;
        } else {
            failed++;
            System.out.println("FAILED: " + name + " " + told);
        }
    }

    private static void same(String name, Object told, Object wanted) {
        count(name, Objects.equals(told, wanted), told + " and not " + wanted);
    }

    /** Runs what has to throw this, and gives it. */
    private static <T extends Throwable> T thrown(String name, Class<T> kind, Doing doing) {
        try {
            doing.run();
            count(name, false, "nothing is thrown");
        } catch (Throwable fault) {
            count(name, kind.isInstance(fault), fault);
            if (kind.isInstance(fault)) {
                return kind.cast(fault);
            }
        }
        return null;
    }

    /** Runs what has to throw this with this text. */
    private static void said(String name, Class<? extends Throwable> kind, String text, Doing doing) {
        Throwable fault = thrown(name, kind, doing);
        same(name + ": text", fault == null ? null : fault.getMessage(), text);
    }

    private static void denied(String name, SecurityErrorCode code, Doing doing) {
        AccumuloSecurityException fault = thrown(name, AccumuloSecurityException.class, doing);
        same(name + ": code", fault == null ? null : fault.getSecurityErrorCode(), code);
    }

    // ---- Tables for one case.

    private AccumuloClient client(String user) {
        return Tabd.client("127.0.0.1", port, user);
    }

    private String table(NewTableConfiguration configuration) throws Exception {
        String name = "case" + number++;
        root.tableOperations().create(name, configuration);
        return name;
    }

    private String table() throws Exception {
        return table(new NewTableConfiguration());
    }

    private static Mutation put(String row, String family, String qualifier, String label, long time, String value) {
        return new Mutation(row).at().family(family).qualifier(qualifier).visibility(label).timestamp(time).put(value);
    }

    private static Mutation delete(String row, String family, String qualifier, String label, long time) {
        return new Mutation(row).at().family(family).qualifier(qualifier).visibility(label).timestamp(time).delete();
    }

    private void write(String table, Mutation... mutations) throws Exception {
        try (BatchWriter writer = root.createBatchWriter(table)) {
            writer.addMutations(List.of(mutations));
        }
    }

    /** What a scan shows: row, family, qualifier and value of each cell. */
    private static List<String> shown(ScannerBase scanner) {
        List<String> cells = new ArrayList<>();
        scanner.forEach((key, value) -> cells.add(
                String.join(" ", key.getRow().toString(), key.getColumnFamily().toString(), key.getColumnQualifier().toString(), value.toString())));
        return cells;
    }

    private List<String> scan(String table, Range range, String... authorizations) throws Exception {
        try (Scanner scanner = root.createScanner(table, new Authorizations(authorizations))) {
            scanner.setRange(range);
            return shown(scanner);
        }
    }

    private List<String> scan(String table) throws Exception {
        return scan(table, new Range());
    }

    // ---- Labels.

    private void labels(Path file) throws Exception {
        VisibilityEvaluator evaluator = new VisibilityEvaluator(new Authorizations("one", "two", "three", "four"));
        String table = table();
        for (String line : Files.readAllLines(file)) {
            if (line.startsWith("#")) {
                continue;
            }
            Matcher words = LABELS.matcher(line);
            count("a line of labels", words.matches(), line);
            label(line, words.group(1), words.group(2), words.group(3), evaluator, table);
        }
        same("the text of a label", new ColumnVisibility("a&b").toString(), "[a&b]");
        count("labels of other texts are others", !new ColumnVisibility("a&b").equals(new ColumnVisibility("b&a")), "");
        new ColumnVisibility("(".repeat(64) + "a" + ")".repeat(64));
        thrown("65 parentheses", BadArgumentException.class, () -> new ColumnVisibility("(".repeat(65) + "a" + ")".repeat(65)));
    }

    private void label(String line, String said, String one, String other, VisibilityEvaluator evaluator, String table) throws Exception {
        switch (said) {
            case "accepted" -> {
                same(line, new String(new ColumnVisibility(one).getExpression(), StandardCharsets.UTF_8), one);
                write(table, put("r", "f", "q", one, 1, "v"));
            }
            case "refused" -> {
                thrown(line, BadArgumentException.class, () -> new ColumnVisibility(one));
                thrown(line + " at the server", MutationsRejectedException.class, () -> write(table, put("r", "f", "q", one, 1, "v")));
            }
            case "shown", "hidden" -> same(line, evaluator.evaluate(new ColumnVisibility(one)), said.equals("shown"));
            case "quoted" -> same(line, ColumnVisibility.quote(one), other);
            case "same" -> same(line, flat(one), flat(other));
            case "differ" -> count(line, !flat(one).equals(flat(other)), flat(one));
            default -> count(line, false, "no such line");
        }
    }

    private static String flat(String label) {
        return new String(new ColumnVisibility(label).flatten(), StandardCharsets.UTF_8);
    }

    // ---- Data.

    private static Key key(String row, String family, String qualifier, long time) {
        return new Key(row, family, qualifier, time);
    }

    private static void keys() {
        byte[] low = {0x7f};
        byte[] high = {(byte) 0x80};
        count("bytes are unsigned", new Key(low).compareTo(new Key(high)) < 0, "");
        count("the newest comes first", key("r", "f", "q", 6).compareTo(key("r", "f", "q", 5)) < 0, "");
        count("capital letters come first", new Key("B").compareTo(new Key("b")) < 0, "");
        count("a prefix comes first", new Key("a").compareTo(new Key("aa")) < 0, "");
        count("a key of a row comes before its cells", new Key("r").compareTo(key("r", "", "", 5)) < 0, "");
        count("rows are equal", key("r", "f", "q", 5).equals(key("r", "g", "q", 6), PartialKey.ROW), "");
        count("families aren't", !key("r", "f", "q", 5).equals(key("r", "g", "q", 6), PartialKey.ROW_COLFAM), "");
        same("what follows a row", new Key("r").followingKey(PartialKey.ROW), new Key("r\0"));
        same("what follows a family", key("r", "f", "q", 5).followingKey(PartialKey.ROW_COLFAM), new Key("r", "f\0"));
        same("what follows a time", key("r", "f", "q", 5).followingKey(PartialKey.ROW_COLFAM_COLQUAL_COLVIS_TIME), key("r", "f", "q", 4));
        same("a key as a text", new Key("r\n", "f", "q", "A&B", 5).toString(), "r%0a; f:q [A&B] 5 false");
        byte[] row = {1};
        Key kept = new Key(row, row, row, row, 5);
        row[0] = 2;
        same("a key copies its bytes", kept.getRowData().toArray()[0], (byte) 1);
        Text text = new Text("old");
        kept.getRow(text);
        same("a row into a text", text, new Text(new byte[] {1}));
        same("an empty value", new Value().getSize(), 0);
        same("UTF-8", new Text("Müller").getLength(), 7);
        same("the order of values", Integer.signum(new Value(low).compareTo(new Value(high))), -1);
    }

    private static void texts() {
        byte[] bytes = {'a', '\n', '\\'};
        byte[] none = {};
        same("a cell", new Cell(bytes, none, bytes, none, 5, bytes).toString(),
                "Cell[row=a\\x0a\\\\, family=\\e, qualifier=a\\x0a\\\\, label=\\e, timestamp=5, value=a\\x0a\\\\]");
        same("a column", new Column(bytes, null).toString(), "Column[family=a\\x0a\\\\, qualifier=null]");
        same("rows", new RowRange(bytes, true, null, false).toString(), "RowRange[low=a\\x0a\\\\, withLow=true, high=null, withHigh=false]");
        same("rights", new Rights(Set.of("GRANT"), Set.of(), List.of(bytes, none)).toString(),
                "Rights[system=[GRANT], table=[], authorizations=[a\\x0a\\\\, \\e]]");
        Mutation mutation = new Mutation("r");
        mutation.put("f", "q", new ColumnVisibility("A"), 5, "v");
        mutation.putDelete("f", "q");
        same("a mutation", mutation.toString(), "mutation: r\n update: f:q 5 [A] v false\n update: f:q - []  true\n");
    }

    private static void ranges() {
        thrown("c to a", IllegalArgumentException.class, () -> new Range("c", "a"));
        count("a to c has c's cells", new Range("a", "c").contains(key("c", "f", "q", 5)), "");
        count("and nothing behind", !new Range("a", "c").contains(key("c\0", "f", "q", 5)), "");
        count("without its ends", !new Range("a", false, "c", false).contains(key("a", "f", "q", 5)), "");
        count("null is infinite", new Range((Text) null, new Text("c")).contains(key("", "", "", 5)), "");
        count("to infinity", new Range("a", null).contains(key("\uffff", "", "", 5)), "");
        count("a row", new Range("r").contains(key("r", "z", "z", 5)) && !new Range("r").contains(key("s", "", "", 5)), "");
        count("exact has its family", Range.exact("r", "f").contains(key("r", "f", "q", 5)), "");
        count("and no other", !Range.exact("r", "f").contains(key("r", "ff", "q", 5)), "");
        count("a prefix", Range.prefix("ab").contains(key("abc", "f", "q", 5)) && !Range.prefix("ab").contains(key("ac", "f", "q", 5)), "");
        count("a prefix of 0xff", Range.prefix(new Text(new byte[] {-1})).isInfiniteStopKey(), "");
        same("merged", Range.mergeOverlapping(List.of(new Range("c", "e"), new Range("a", "b"), new Range("d", "f"), new Range("e"))),
                List.of(new Range("a", "b"), new Range("c", "f")));
        same("neighbours are merged", Range.mergeOverlapping(List.of(new Range("a", true, "b", false), new Range("b", "c"))), List.of(new Range("a", "c")));
        same("clipped", new Range("a", "m").clip(new Range("g", "z")), new Range("g", "m"));
        same("clipped to nothing", String.valueOf(new Range("a", "b").clip(new Range("c", "d"), true)), "null");
        thrown("clipped to nothing, and told", IllegalArgumentException.class, () -> new Range("a", "b").clip(new Range("c", "d")));
        Key one = key("r", "f", "q", 5);
        count("without its key", !new Range(one, false, null, true).contains(one) && new Range(one, true, one, true).contains(one), "");
    }

    private static void mutations() {
        byte[] value = {1};
        Mutation mutation = new Mutation("r");
        mutation.put("f".getBytes(StandardCharsets.UTF_8), new byte[0], value);
        value[0] = 2;
        mutation.put(new Text("f"), new Text("q"), new ColumnVisibility("A"), 5, new Value("v"));
        mutation.putDelete("f", "q", 6);
        List<ColumnUpdate> updates = mutation.getUpdates();
        same("updates", mutation.size(), 3);
        same("a mutation copies its bytes", updates.get(0).getValue()[0], (byte) 1);
        count("a time that isn't given", !updates.get(0).hasTimestamp() && updates.get(1).hasTimestamp(), "");
        same("a time that is", updates.get(1).getTimestamp(), 5L);
        count("a delete", updates.get(2).isDeleted() && !updates.get(1).isDeleted(), "");
        same("a label", new String(updates.get(1).getColumnVisibility(), StandardCharsets.UTF_8), "A");
        Mutation copy = new Mutation(mutation);
        same("a copy", copy, mutation);
        copy.put("f", "q", "more");
        count("a copy is another one", !copy.equals(mutation) && mutation.size() == 3, "");
    }

    // ---- What tables show.

    private void versions() throws Exception {
        String table = table();
        write(table, put("r", "f", "q", "", 5, "old"), put("r", "f", "q", "", 6, "new"));
        same("two puts of a column", scan(table), List.of("r f q new"));
        write(table, delete("r", "f", "q", "", 5));
        same("a delete below a put", scan(table), List.of("r f q new"));
        write(table, delete("r", "f", "q", "", 6));
        same("a delete at a put", scan(table), List.of());
        write(table, put("r", "f", "q", "", 6, "late"));
        same("a put at a delete, later", scan(table), List.of());
        root.tableOperations().compact(table, new CompactionConfig().setWait(true));
        write(table, put("r", "f", "q", "", 6, "later"));
        same("and behind a full compaction, which Accumulo would show", scan(table), List.of());
        write(table, put("r", "f", "q", "", 7, "above"));
        same("a put above a delete", scan(table), List.of("r f q above"));

        root.securityOperations().changeUserAuthorizations("root", new Authorizations("A", "B"));
        String labels = table();
        write(labels, put("r", "f", "q", "B", 5, "kept"), delete("r", "f", "q", "A", 5));
        same("a label is part of the column", scan(labels, new Range(), "A", "B"), List.of("r f q kept"));
        write(labels, put("s", "f", "q", "A&B", 5, "one"), put("s", "f", "q", "B&A", 5, "other"));
        same("labels are kept as they are written", scan(labels, new Range("s"), "A", "B"), List.of("s f q one", "s f q other"));

        String three = table(new NewTableConfiguration().setProperties(versions("3", "3", "3")));
        for (int time = 1; time < 6; time++) {
            write(three, put("r", "f", "q", "", time, "v" + time));
        }
        same("three versions", scan(three), List.of("r f q v5", "r f q v4", "r f q v3"));
        said("other numbers", IllegalArgumentException.class, "a table has one number of versions, and not 3 in scans and 5 in major compactions",
                () -> new NewTableConfiguration().setProperties(versions("3", "3", "5")));
        said("a number that isn't given is 1", IllegalArgumentException.class,
                "a table has one number of versions, and not 3 in scans and 1 in minor compactions",
                () -> new NewTableConfiguration().setProperties(versions("3", null, "3")));
        said("in scans too", IllegalArgumentException.class, "a table has one number of versions, and not 1 in scans and 5 in major compactions",
                () -> new NewTableConfiguration().setProperties(versions(null, null, "5")));
        same("no properties", new NewTableConfiguration().setVersions(2).setProperties(Map.of()).getVersions(), 2);
    }

    /** The properties of so many versions in scans, minor and major compactions, where they are given. */
    private static Map<String, String> versions(String scan, String minc, String majc) {
        Map<String, String> properties = new HashMap<>();
        properties.put("scan", scan);
        properties.put("minc", minc);
        properties.put("majc", majc);
        properties.values().removeIf(Objects::isNull);
        return properties.entrySet().stream().collect(
                Collectors.toMap(it -> "table.iterator." + it.getKey() + ".vers.opt.maxVersions", Map.Entry::getValue));
    }

    private void scans() throws Exception {
        String table = table();
        write(table, put("a", "f", "q", "", 1, "1"), put("b", "f", "q", "", 1, "2"), put("b", "g", "q", "", 1, "3"), put("B", "f", "q", "", 1, "4"),
                put("c", "f", "r", "", 1, "5"), put("c\0", "f", "q", "", 1, "6"), put("d", "h", "q", "", 1, ""));
        same("a to c, both with", scan(table, new Range("a", "c")), List.of("a f q 1", "b f q 2", "b g q 3", "c f r 5"));
        same("without both", scan(table, new Range("a", false, "c", false)), List.of("b f q 2", "b g q 3"));
        same("an empty range of Accumulo's", scan(table, new Range("a", false, "a", true)), List.of());
        same("capital letters first", scan(table, new Range(null, "a")), List.of("B f q 4", "a f q 1"));
        same("a row and what follows it", scan(table, new Range("c", "c\0")), List.of("c f r 5", "c\0 f q 6"));
        try (Scanner plain = root.createScanner(table, Authorizations.EMPTY); Scanner scanner = new IsolatedScanner(plain)) {
            scanner.fetchColumnFamily("g");
            scanner.fetchColumn("f", "r");
            same("a family and a column", shown(scanner), List.of("b g q 3", "c f r 5"));
            scanner.fetchColumn("f", "q");
            scanner.setRange(new Range("b"));
            same("one more", shown(scanner), List.of("b f q 2", "b g q 3"));
            scanner.clearColumns();
            scanner.setRange(new Range());
            scanner.setBatchSize(2);
            same("by twos", shown(scanner).size(), 7);
            same("and again", shown(scanner).size(), 7);
            same("as a stream", scanner.stream().filter(it -> it.getValue().getSize() == 0).count(), 1L);
        }
        Iterator<Map.Entry<Key, Value>> cells;
        try (Scanner scanner = root.createScanner(table, Authorizations.EMPTY)) {
            cells = scanner.iterator();
            cells.next();
        }
        count("a closed scanner's iterator has no more", !cells.hasNext(), "");
        byte[] low = {0x7f};
        byte[] high = {(byte) 0x80};
        write(table, new Mutation(high).at().family("f").put("high"), new Mutation(low).at().family("f").put("low"));
        same("unsigned rows", scan(table, new Range(new Text(low), null)).stream().map(it -> it.replaceAll(".* ", "")).toList(), List.of("low", "high"));
    }

    /** Ranges that end inside of rows, which a server doesn't know, against a list that is filtered. */
    private void cuts() throws Exception {
        String table = table(new NewTableConfiguration().setVersions(1000));
        List<Key> keys = new ArrayList<>();
        try (BatchWriter writer = root.createBatchWriter(table)) {
            for (String row : List.of("a", "b", "b\0", "c")) {
                for (String family : List.of("", "f", "f\0", "g")) {
                    for (String qualifier : List.of("", "q", "r")) {
                        for (long time = 1; time < 4; time++) {
                            writer.addMutation(put(row, family, qualifier, "", time, "v"));
                            keys.add(new Key(row, family, qualifier, "", time));
                        }
                    }
                }
            }
        }
        for (Key last : List.of(new Key("b", "f", "q\0"), new Key("b", "f\0"), new Key("b\0"), new Key("b"))) {
            // the first key that there can be behind a column, a family and a row
            write(table, new Mutation(last.getRow()).at().family(last.getColumnFamily()).qualifier(last.getColumnQualifier())
                    .timestamp(Long.MAX_VALUE).put("last"));
            keys.add(last);
        }
        keys.sort(null);
        List<Range> ranges = new ArrayList<>(List.of(Range.exact("b"), Range.exact("b", "f"), Range.exact("b", "f", "q"), Range.exact("b", "f", "q", "", 2),
                Range.exact("b", "g", "q", ""), Range.prefix("b"), Range.prefix("b", "f"), Range.prefix("b", "f", "q"), new Range(new Text("b"), false, null, true)));
        for (Range range : List.copyOf(ranges)) {
            ranges.add(new Range(range.getStartKey(), false, range.getEndKey(), true));
        }
        for (int from = 0; from < keys.size(); from += 7) {
            for (int to = from; to < keys.size(); to += 11) {
                boolean with = (from + to) % 2 == 0;
                ranges.add(new Range(keys.get(from), with, keys.get(to), with || to == from));
            }
        }
        try (Scanner scanner = root.createScanner(table, Authorizations.EMPTY); BatchScanner batch = root.createBatchScanner(table, Authorizations.EMPTY, 2)) {
            int wrong = 0;
            for (Range range : ranges) {
                List<Key> wanted = keys.stream().filter(range::contains).toList();
                scanner.setRange(range);
                batch.setRanges(List.of(range));
                wrong += scanner.stream().map(Map.Entry::getKey).toList().equals(wanted) ? 0 : 1;
                wrong += batch.stream().map(Map.Entry::getKey).sorted().toList().equals(wanted) ? 0 : 1;
            }
            same(ranges.size() + " ranges inside of rows", wrong, 0);
            batch.setRanges(ranges.subList(0, 4));
            scanner.setRange(Range.exact("b", "f"));
            scanner.fetchColumn("f", "r");
            same("a column inside of a range", scanner.stream().count(), 3L);
        }
    }

    private void batches() throws Exception {
        String table = table();
        try (BatchWriter writer = root.createBatchWriter(table)) {
            for (int row = 0; row < 3000; row++) {
                writer.addMutation(put(String.format("%04d", row), "f", "q", "", 1, "" + row));
            }
        }
        try (BatchScanner scanner = root.createBatchScanner(table, Authorizations.EMPTY, 10)) {
            thrown("no ranges", IllegalStateException.class, scanner::iterator);
            thrown("none of them", IllegalArgumentException.class, () -> scanner.setRanges(List.of()));
            scanner.setRanges(List.of(new Range("0001", "0005"), new Range("0004", "0010"), new Range("0004"), new Range("9", null)));
            same("each key once", shown(scanner).size(), 10);
            List<Range> points = new ArrayList<>();
            for (int row = 0; row < 5000; row += 2) {
                points.add(new Range(String.format("%04d", row)));
            }
            points.add(new Range("0000", "0100"));
            scanner.setRanges(points);
            same("2,501 ranges", new TreeSet<>(shown(scanner)).size(), 1500 + 50);
            scanner.setRanges(List.of(new Range("none")));
            same("a row that isn't there", shown(scanner), List.of());
            scanner.fetchColumnFamily(new Text("g"));
            scanner.setRanges(List.of(new Range()));
            same("a family that isn't there", shown(scanner), List.of());
        }
    }

    private void authorizations() throws Exception {
        String table = table();
        root.securityOperations().changeUserAuthorizations("root", Authorizations.EMPTY);
        write(table, put("r", "f", "a", "A", 1, "1"), put("r", "f", "b", "B", 1, "2"), put("r", "f", "c", "", 1, "3"));
        same("root holds none at first", scan(table), List.of("r f c 3"));
        RuntimeException refused = thrown("an authorization that isn't held", RuntimeException.class, () -> scan(table, new Range(), "A"));
        denied("its cause", SecurityErrorCode.BAD_AUTHORIZATIONS, () -> {
            throw (Exception) refused.getCause();
        });
        root.securityOperations().changeUserAuthorizations("root", new Authorizations("A", "B"));
        Throwable odd = thrown("one that isn't printable", RuntimeException.class, () -> scan(table, new Range(), "\u00e4 \\,"));
        same("a term as the shell has it", odd.getCause().getMessage(),
                "Error BAD_AUTHORIZATIONS for user root on table " + table + ": BadAuthorizations[term=\\xc3\\xa4\\x20\\\\,]");
        same("a part of those held", scan(table, new Range(), "A"), List.of("r f a 1", "r f c 3"));
        same("none of them", scan(table, new Range()), List.of("r f c 3"));
        try (Scanner scanner = root.createScanner(table)) {
            same("all of them", shown(scanner), List.of("r f a 1", "r f b 2", "r f c 3"));
            same("which these are", scanner.getAuthorizations(), new Authorizations("B", "A"));
        }
        String comma = "a,b";
        root.securityOperations().changeUserAuthorizations("root", new Authorizations(List.<byte[]>of(comma.getBytes(StandardCharsets.UTF_8))));
        write(table, put("s", "f", "q", ColumnVisibility.quote(comma), 1, "v"));
        same("a term in quotes", scan(table, new Range("s"), comma), List.of("s f q v"));
        root.securityOperations().changeUserAuthorizations("root", new Authorizations("A", "B"));
    }

    private void writers() throws Exception {
        String table = table();
        MutationsRejectedException fault = thrown("one bad mutation of ten", MutationsRejectedException.class, () -> {
            try (BatchWriter writer = root.createBatchWriter(table)) {
                for (int row = 0; row < 10; row++) {
                    writer.addMutation(put("r" + row, "f", "q", row == 5 ? "a&" : "", 1, "v"));
                }
            }
        });
        same("nine are applied", scan(table).size(), 9);
        same("one is told", fault.getConstraintViolationSummaries().get(0).getNumberOfViolatingMutations(), 1L);
        same("why", fault.getConstraintViolationSummaries().get(0).getConstrainClass(), "MalformedVisibility");

        write(table, put("unseen", "f", "q", "never&held", 1, "v"));
        root.tableOperations().setConstraints(table, EnumSet.of(Constraint.VISIBILITY, Constraint.NUMERIC));
        MutationsRejectedException seen = thrown("a label that the writer can't read", MutationsRejectedException.class, () -> write(table,
                put("r", "f", "q", "never", 1, "1"), put("r", "f", "q", "never", 1, "x"), put("r", "f", "q", "", 1, "7")));
        Set<String> violated = new TreeSet<>();
        seen.getConstraintViolationSummaries().forEach(it -> violated.add(it.constrainClass.replaceAll(".*\\.", "") + " " + it.violationCode + " " + it.numberOfViolatingMutations));
        same("constraints and codes", violated, new TreeSet<>(List.of("VisibilityConstraint 2 2", "NumericValueConstraint 1 1")));
        same("the good one is applied", scan(table, new Range("r")), List.of("r f q 7"));
        root.tableOperations().setConstraints(table, Set.of());

        try (BatchWriter writer = root.createBatchWriter(table, new BatchWriterConfig().setMaxMemory(1).setMaxLatency(1, TimeUnit.HOURS))) {
            thrown("an empty mutation", IllegalArgumentException.class, () -> writer.addMutation(new Mutation("r")));
            thrown("one over 8 MiB", IllegalArgumentException.class, () -> writer.addMutation(put("r", "f", "q", "", 1, "v".repeat(9_000_000))));
            Mutation many = new Mutation("r");
            for (int update = 0; update < 1001; update++) {
                many.put("f", "q" + update, "v");
            }
            thrown("1,001 updates", MutationsRejectedException.class, () -> write(table, many));
            thrown("a part over 1 MiB", MutationsRejectedException.class, () -> write(table, put("r", "f", "q", "", 1, "v".repeat((1 << 20) + 1))));
            writer.addMutation(put("now", "f", "q", "", 1, "v"));
            writer.flush();
            same("behind a flush", scan(table, new Range("now")).size(), 1);
        }
        BatchWriter slow = root.createBatchWriter(table, new BatchWriterConfig().setMaxLatency(20, TimeUnit.MILLISECONDS));
        slow.addMutation(put("latency", "f", "q", "", 1, "v"));
        long end = System.nanoTime() + TimeUnit.SECONDS.toNanos(20);
        while (scan(table, new Range("latency")).isEmpty() && System.nanoTime() < end) {
            Thread.sleep(5);
        }
        same("a mutation is sent once it has waited", scan(table, new Range("latency")).size(), 1);
        slow.close();
        slow.close();
        thrown("a closed writer", IllegalStateException.class, () -> slow.addMutation(put("r", "f", "q", "", 1, "v")));
        BatchWriter told = root.createBatchWriter(table);
        told.addMutation(put("r", "f", "q", "(", 1, "v"));
        thrown("flush tells", MutationsRejectedException.class, told::flush);
        thrown("each call tells then", MutationsRejectedException.class, () -> told.addMutation(put("r", "f", "q", "", 1, "v")));
        thrown("close tells too", MutationsRejectedException.class, told::close);

        BatchWriterConfig durable = new BatchWriterConfig().setDurability(Durability.SYNC);
        same("a durability is kept", durable.getDurability(), Durability.SYNC);
        try (BatchWriter writer = root.createBatchWriter(table, durable)) {
            writer.addMutation(put("durable", "f", "q", "", 1, "v"));
        }
        same("and ignored", scan(table, new Range("durable")).size(), 1);

        String other = table();
        try (MultiTableBatchWriter writers = root.createMultiTableBatchWriter()) {
            writers.getBatchWriter(table).addMutation(put("multi", "f", "q", "", 1, "v"));
            writers.getBatchWriter(other).addMutation(put("multi", "f", "q", "", 1, "w"));
            thrown("no such table", TableNotFoundException.class, () -> writers.getBatchWriter("none"));
            writers.flush();
            same("one table", scan(table, new Range("multi")), List.of("multi f q v"));
            same("and the other", scan(other), List.of("multi f q w"));
        }
        String gone = table();
        BatchWriter late = root.createBatchWriter(gone);
        late.addMutation(put("r", "f", "q", "", 1, "v"));
        root.tableOperations().delete(gone);
        MutationsRejectedException dropped = thrown("a table that is dropped meanwhile", MutationsRejectedException.class, late::close);
        same("which is told", dropped.getSecurityErrorCodes(), Map.of(gone, EnumSet.of(SecurityErrorCode.TABLE_DOESNT_EXIST)));
        String timed = table(new NewTableConfiguration().setServerTime());
        thrown("a time where the table gives it", MutationsRejectedException.class, () -> write(timed, put("r", "f", "q", "", 1, "v")));
        write(timed, new Mutation("r").at().family("f").qualifier("q").put("v"));
        same("and without", scan(timed), List.of("r f q v"));
    }

    private void tables() throws Exception {
        String table = table();
        count("there is the table", root.tableOperations().exists(table) && !root.tableOperations().exists("none"), "");
        thrown("a table twice", TableExistsException.class, () -> root.tableOperations().create(table));
        said("no name", IllegalArgumentException.class, "not a name, which is 1 to 128 of a-z A-Z 0-9 _ - . : null", () -> root.tableOperations().create(null));
        thrown("no name to scan", IllegalArgumentException.class, () -> root.createScanner(null, Authorizations.EMPTY));
        thrown("no table to scan", TableNotFoundException.class, () -> root.createScanner("none", Authorizations.EMPTY));
        thrown("no table to write to", TableNotFoundException.class, () -> root.createBatchWriter("none"));
        thrown("no table to drop", TableNotFoundException.class, () -> root.tableOperations().delete("none"));
        thrown("no name", IllegalArgumentException.class, () -> root.tableOperations().create("a b"));
        TreeSet<Text> rows = new TreeSet<>(List.of(new Text("g"), new Text("m"), new Text("t")));
        root.tableOperations().addSplits(table, rows);
        root.tableOperations().addSplits(table, rows);
        same("splits, of which one that is there is no error", new ArrayList<>(root.tableOperations().listSplits(table)), new ArrayList<>(rows));
        same("one of three", new ArrayList<>(root.tableOperations().listSplits(table, 1)), List.of(new Text("m")));
        String made = table(new NewTableConfiguration().withSplits(rows));
        same("made with splits", root.tableOperations().status(made).tablets(), 4L);
        write(table, put("r", "f", "q", "", 1, "v"));
        root.tableOperations().flush(table, null, null, true);
        same("flushed", root.tableOperations().status(table).sources(), 1L);
        root.tableOperations().setHorizon(table, 10);
        thrown("below the horizon", MutationsRejectedException.class, () -> write(table, put("r", "f", "q", "", 9, "v")));
        thrown("a lower horizon", AccumuloException.class, () -> root.tableOperations().setHorizon(table, 9));
        thrown("more versions", AccumuloException.class, () -> root.tableOperations().setVersions(table, 2));
        root.tableOperations().delete(table);
        count("it is gone", !root.tableOperations().exists(table), "");
        root.tableOperations().create("space.case");
        String half = "k".repeat(600_000);
        write("space.case", put("r", half, half, "", 1, "v"));
        same("a name with a dot, and a new table that limits no keys", scan("space.case").size(), 1);
        root.tableOperations().setConstraints("space.case", Set.of(Constraint.KEYSIZE));
        thrown("keys are limited", MutationsRejectedException.class, () -> write("space.case", put("s", half, half, "", 1, "v")));
    }

    private void users() throws Exception {
        String table = table();
        root.securityOperations().createLocalUser("ann", new PasswordToken("secret"));
        denied("a user twice", SecurityErrorCode.USER_EXISTS, () -> root.securityOperations().createLocalUser("ann", null));
        try (AccumuloClient ann = client("ann"); AccumuloClient ghost = client("ghost")) {
            same("who asks", ann.whoami(), "ann");
            denied("to scan without READ", SecurityErrorCode.PERMISSION_DENIED, () -> firstOf(ann.createScanner(table, Authorizations.EMPTY)));
            MutationsRejectedException rejected = thrown("to write without WRITE", MutationsRejectedException.class, () -> {
                try (BatchWriter writer = ann.createBatchWriter(table)) {
                    writer.addMutation(put("r", "f", "q", "", 1, "v"));
                }
            });
            same("which is told", rejected.getSecurityErrorCodes(), Map.of(table, EnumSet.of(SecurityErrorCode.PERMISSION_DENIED)));
            denied("to make a table", SecurityErrorCode.PERMISSION_DENIED, () -> ann.tableOperations().create("hers"));
            root.securityOperations().grantSystemPermission("ann", SystemPermission.CREATE_TABLE);
            ann.tableOperations().create("hers");
            for (TablePermission permission : Permission.TABLE.stream().map(TablePermission::valueOf).toList()) {
                count("the maker has " + permission, ann.securityOperations().hasTablePermission("ann", "hers", permission), "");
            }
            root.securityOperations().revokeSystemPermission("ann", SystemPermission.CREATE_TABLE);
            denied("to make another", SecurityErrorCode.PERMISSION_DENIED, () -> ann.tableOperations().create("second"));
            root.securityOperations().grantTablePermission("ann", table, TablePermission.READ);
            try (Scanner scanner = ann.createScanner(table, Authorizations.EMPTY)) {
                same("READ is given", shown(scanner), List.of());
            }
            root.securityOperations().revokeTablePermission("ann", table, TablePermission.READ);
            denied("and taken", SecurityErrorCode.PERMISSION_DENIED, () -> firstOf(ann.createScanner(table, Authorizations.EMPTY)));
            root.securityOperations().changeUserAuthorizations("ann", new Authorizations("A"));
            root.securityOperations().dropLocalUser("ann");
            denied("a user who is dropped", SecurityErrorCode.BAD_CREDENTIALS, () -> ann.tableOperations().create("third"));
            root.securityOperations().createLocalUser("ann", null);
            count("made again, without old rights", !ann.securityOperations().hasTablePermission("ann", "hers", TablePermission.READ), "");
            denied("nobody", SecurityErrorCode.BAD_CREDENTIALS, () -> ghost.tableOperations().create("fourth"));
        }
        denied("no such user", SecurityErrorCode.USER_DOESNT_EXIST, () -> root.securityOperations().dropLocalUser("none"));
        denied("root is not dropped", SecurityErrorCode.PERMISSION_DENIED, () -> root.securityOperations().dropLocalUser("root"));
        denied("GRANT is root's", SecurityErrorCode.GRANT_INVALID, () -> root.securityOperations().grantSystemPermission("ann", SystemPermission.GRANT));
        for (TablePermission permission : List.of(TablePermission.ALTER_TABLE, TablePermission.READ)) {
            // a permission of that name is on the system too
            thrown(permission + " on no table", IllegalArgumentException.class, () -> root.securityOperations().grantTablePermission("ann", null, permission));
            thrown(permission + " from no table", IllegalArgumentException.class, () -> root.securityOperations().revokeTablePermission("ann", null, permission));
        }
        denied("a table that isn't there", SecurityErrorCode.TABLE_DOESNT_EXIST,
                () -> root.securityOperations().grantTablePermission("ann", "none", TablePermission.READ));
    }

    /** Reads a first cell, and throws the cause of what is thrown. */
    private static void firstOf(Scanner scanner) throws Exception {
        try (scanner) {
            scanner.iterator().hasNext();
        } catch (RuntimeException fault) {
            throw (Exception) fault.getCause();
        }
    }

    private void filters() throws Exception {
        String table = table();
        write(table, put("apple", "f", "q", "", 1, "red"), put("pear", "f", "q", "", 2, "green"), put("plum", "g", "q", "", 3, "blue"));
        try (Scanner scanner = root.createScanner(table, Authorizations.EMPTY)) {
            IteratorSetting regex = new IteratorSetting(20, "regex", RegExFilter.class);
            RegExFilter.setRegexs(regex, "p.*", "f", null, null, false);
            scanner.addScanIterator(regex);
            same("expressions", shown(scanner), List.of("pear f q green"));
            thrown("a name twice", IllegalArgumentException.class, () -> scanner.addScanIterator(regex));
            scanner.updateScanIteratorOption("regex", "orFields", "true");
            same("one of them will do", shown(scanner).size(), 3);
            scanner.removeScanIterator("regex");
            IteratorSetting grep = new IteratorSetting(21, GrepIterator.class);
            GrepIterator.setTerm(grep, "re");
            scanner.addScanIterator(grep);
            same("a term", shown(scanner), List.of("apple f q red", "pear f q green"));
            IteratorSetting time = new IteratorSetting(22, TimestampFilter.class);
            TimestampFilter.setStart(time, 2, true);
            scanner.addScanIterator(time);
            same("a time too", shown(scanner), List.of("pear f q green"));
            scanner.clearScanIterators();
            Filter.setNegate(time, true);
            scanner.addScanIterator(time);
            same("and not that time", shown(scanner), List.of("apple f q red"));
        }
        filtersBeforeVersions(table);
    }

    /** In Accumulo these would see versions that the table doesn't show, as its versions are left out at priority 20. */
    private void filtersBeforeVersions(String table) throws Exception {
        String why = "addScanIterator: a filter here sees only the versions that the table shows; priority 10 would come before them";
        IteratorSetting rows = new IteratorSetting(10, RegExFilter.class);
        RegExFilter.setRegexs(rows, "p.*", "f", "q", null, false);
        IteratorSetting values = new IteratorSetting(10, "values", RegExFilter.class);
        RegExFilter.setRegexs(values, null, null, null, "red", false);
        IteratorSetting grep = new IteratorSetting(10, GrepIterator.class);
        GrepIterator.setTerm(grep, "re");
        IteratorSetting time = new IteratorSetting(10, TimestampFilter.class);
        TimestampFilter.setEnd(time, 2, true);
        try (Scanner scanner = root.createScanner(table, Authorizations.EMPTY)) {
            for (IteratorSetting setting : List.of(values, grep, time)) {
                said(setting.getName() + " at 10", UnsupportedOperationException.class, why, () -> scanner.addScanIterator(setting));
            }
            scanner.addScanIterator(rows);
            same("what looks at keys is the same before and behind", shown(scanner), List.of("pear f q green"));
            said("a pattern on values, later", UnsupportedOperationException.class, why,
                    () -> scanner.updateScanIteratorOption("RegExFilter", "valueRegex", "red"));
            same("isn't set then", shown(scanner), List.of("pear f q green"));
            thrown("an option that is none", IllegalArgumentException.class,
                    () -> scanner.updateScanIteratorOption("RegExFilter", "rowRegex", "("));
            scanner.clearScanIterators();
            said("no term", IllegalArgumentException.class, "GrepIterator has no option term",
                    () -> scanner.addScanIterator(new IteratorSetting(21, GrepIterator.class)));
            scanner.addScanIterator(
                    new IteratorSetting(22, "there", "org.apache.accumulo.core.iterators.user.GrepIterator", Map.of("term", "re")));
            same("a filter by its name in Accumulo", shown(scanner), List.of("apple f q red", "pear f q green"));
            same("a setting as a text", new IteratorSetting(22, "n", "c", Map.of("o", "v")).toString(), "name:n, priority:22, class:c, properties:{o=v}");
            same("a cell as a text", scanner.iterator().next().toString(), "apple f:q [] 1 false red");
        }
    }

    private void moments() throws Exception {
        String table = table();
        write(table, put("a", "f", "q", "", 1, "1"), put("b", "f", "q", "", 1, "2"));
        try (Scanner scanner = root.createScanner(table, Authorizations.EMPTY)) {
            scanner.setBatchSize(1);
            Iterator<Map.Entry<Key, Value>> cells = scanner.iterator();
            write(table, put("a", "f", "q", "", 2, "late"), put("c", "f", "q", "", 1, "3"), delete("b", "f", "q", "", 1));
            List<String> seen = new ArrayList<>();
            cells.forEachRemaining(it -> seen.add(it.getValue().toString()));
            same("a scan is of the moment at which it began", seen, List.of("1", "2"));
        }
        same("and the next one of another", scan(table), List.of("a f q late", "c f q 3"));
    }

    private void threads() throws Exception {
        String table = table();
        ExecutorService pool = Executors.newFixedThreadPool(8);
        try (BatchWriter writer = root.createBatchWriter(table)) {
            List<Callable<Integer>> work = new ArrayList<>();
            for (int thread = 0; thread < 8; thread++) {
                int own = thread;
                work.add(() -> {
                    for (int row = 0; row < 500; row++) {
                        writer.addMutation(put(own + "-" + row, "f", "q", "", 1, "v"));
                        if (row % 100 == 0) {
                            writer.flush();
                            scan(table, new Range(own + "-" + row));
                        }
                    }
                    return scan(table, Range.prefix(own + "-")).size();
                });
            }
            for (Future<Integer> done : pool.invokeAll(work)) {
                count("a thread", done.get() > 400, done.get());
            }
        } finally {
            pool.shutdown();
        }
        same("eight threads write and scan over one client", scan(table).size(), 4000);
    }

    /** A server that answers so many requests of each connection, each by Ok and those for rights by rights; then it ends it, or is silent. */
    private static final class StandIn implements AutoCloseable {
        private static final byte[] OK = {0, 0, 0, 1, (byte) 0x80};
        private static final byte[] RIGHTS = {0, 0, 0, 7, (byte) 0x88, -1, 31, 0, 0, 0, 0};
        private final ServerSocket listener = new ServerSocket(0);
        private final int answered;
        private final boolean silent;

        StandIn(int answered, boolean silent) throws IOException {
            this.answered = answered;
            this.silent = silent;
            Thread thread = new Thread(this::serve);
            thread.setDaemon(true);
            thread.start();
        }

        Address address() {
            return new Address.Port("127.0.0.1", listener.getLocalPort());
        }

        AccumuloClient client() {
            return Tabd.client(address(), "root", Duration.ofSeconds(30));
        }

        private void serve() {
            List<Socket> kept = new ArrayList<>();
            try {
                while (true) {
                    Socket stream = listener.accept();
                    kept.add(stream);
                    DataInputStream in = new DataInputStream(stream.getInputStream());
                    for (int request = 0; request <= answered; request++) {
                        byte[] frame = in.readNBytes(in.readInt());
                        stream.getOutputStream().write(frame[0] == 0x14 ? RIGHTS : OK);
                    }
                    if (!silent) {
                        stream.close();
                    }
                }
            } catch (IOException closed) {
                // it is over
            }
        }

        @Override
        public void close() throws IOException {
            listener.close();
        }
    }

    /** Does it until it isn't a connection that has ended, and gives what it throws then, or null. */
    private static Throwable retried(Doing doing) throws Exception {
        while (true) {
            Throwable fault = null;
            try {
                doing.run();
            } catch (Exception thrown) {
                fault = thrown;
            }
            boolean ended = false;
            for (Throwable why = fault; why != null; why = why.getCause()) {
                ended |= why instanceof ConnectionClosedException;
            }
            if (!ended) {
                return fault;
            }
            Thread.sleep(10);
        }
    }

    private void breaks() throws Exception {
        try (StandIn server = new StandIn(1, false); AccumuloClient client = server.client()) {
            for (int round = 0; round < 3; round++) {
                // behind each the server ends the connection, and one that begins once that is known makes another
                same("an operation on a new connection", retried(() -> client.tableOperations().flush("t")), null);
            }
            Throwable wrong = retried(() -> shown(client.createScanner("t", Authorizations.EMPTY)));
            count("a scan whose reply is none", wrong instanceof RuntimeException && wrong.getCause() instanceof AccumuloException
                    && wrong.getCause().getCause() instanceof ProtocolException, wrong);
        }
        try (StandIn server = new StandIn(1, false); AccumuloClient client = server.client()) {
            BatchWriter writer = client.createBatchWriter("t", new BatchWriterConfig().setMaxMemory(1));
            MutationsRejectedException lost = thrown("a connection that ends behind the first write", MutationsRejectedException.class, () -> {
                for (int row = 0; row < 10_000; row++) {
                    writer.addMutation(put("r" + row, "f", "q", "", 1, "v"));
                }
                writer.flush();
            });
            count("what isn't known", lost.getUnknownExceptions() > 0 && lost.getConstraintViolationSummaries().isEmpty(), lost);
            count("why", lost.getCause() instanceof ConnectionClosedException, lost.getCause());
            thrown("and at its end", MutationsRejectedException.class, writer::close);
        }
        try (StandIn server = new StandIn(-1, true)) {
            String why = "the server took longer than PT0.1S; all its workers may be busy (--workers)";
            ServerTimeoutException busy = thrown("a connection that nobody serves", ServerTimeoutException.class,
                    () -> Connection.open(server.address(), "root", Duration.ofMillis(100)));
            same("says why that may be", busy.getMessage(), why);
            AccumuloClient client = Tabd.client(server.address(), "root", Duration.ofMillis(100));
            AccumuloException asked = thrown("an operation too", AccumuloException.class, () -> client.tableOperations().flush("t"));
            same("says it", asked.getCause().getMessage(), why);
        }
        try (StandIn server = new StandIn(0, true); Connection connection = Connection.open(server.address(), "root", Duration.ofMillis(100))) {
            said("one that is served", ServerTimeoutException.class, "the server took longer than PT0.1S", () -> connection.ask(Request.status("t")));
        }
        try (StandIn server = new StandIn(1, true); AccumuloClient client = server.client(); AccumuloClient another = server.client()) {
            Scanner scanner = client.createScanner("t", Authorizations.EMPTY);
            scanner.setTimeout(50, TimeUnit.MILLISECONDS);
            thrown("a scanner's time is over", TimedOutException.class, () -> shown(scanner));
            BatchWriter writer = another.createBatchWriter("t", new BatchWriterConfig().setTimeout(50, TimeUnit.MILLISECONDS));
            writer.addMutation(put("r", "f", "q", "", 1, "v"));
            writer.addMutation(put("s", "f", "q", "", 1, "v"));
            MutationsRejectedException late = thrown("a writer's time is over", MutationsRejectedException.class, writer::close);
            count("which is told", late.getUnknownExceptions() == 2 && late.getCause() instanceof ServerTimeoutException, late);
        }
    }

    private void absent() throws Exception {
        String table = table();
        for (Doing doing : List.<Doing>of(
                () -> root.tableOperations().list(),
                () -> root.tableOperations().rename(table, "other"),
                () -> root.tableOperations().clone(table, "other", false, Map.of(), Set.of()),
                () -> root.tableOperations().merge(table, null, null),
                () -> root.tableOperations().deleteRows(table, null, null),
                () -> root.tableOperations().getMaxRow(table, Authorizations.EMPTY, null, true, null, true),
                () -> root.tableOperations().setProperty(table, "table.split.threshold", "1G"),
                () -> new NewTableConfiguration().setProperties(Map.of("table.split.threshold", "1G")),
                () -> root.securityOperations().getUserAuthorizations("root"),
                () -> root.securityOperations().hasSystemPermission("root", SystemPermission.SYSTEM),
                () -> root.securityOperations().hasTablePermission("ann", table, TablePermission.READ),
                () -> root.securityOperations().authenticateUser("root", new PasswordToken("secret")),
                () -> root.securityOperations().changeLocalUserPassword("root", new PasswordToken("secret")),
                () -> root.tableOperations().addConstraint(table, "c"),
                () -> root.tableOperations().setLocalityGroups(table, Map.of()),
                () -> root.tableOperations().attachIterator(table, null),
                () -> root.tableOperations().importDirectory(table, "d", "f", false),
                () -> root.securityOperations().listLocalUsers(),
                () -> root.createBatchDeleter(table, Authorizations.EMPTY, 1),
                () -> root.createConditionalWriter(table),
                () -> root.tableOperations().create("logical", new NewTableConfiguration().setTimeType(TimeType.LOGICAL)),
                () -> root.securityOperations().grantTablePermission("root", table, TablePermission.BULK_IMPORT),
                () -> root.securityOperations().revokeTablePermission("root", table, TablePermission.GET_SUMMARIES),
                () -> root.securityOperations().hasTablePermission("root", table, TablePermission.BULK_IMPORT),
                () -> root.securityOperations().grantSystemPermission("root", SystemPermission.CREATE_NAMESPACE),
                () -> root.securityOperations().revokeSystemPermission("root", SystemPermission.OBTAIN_DELEGATION_TOKEN),
                root::namespaceOperations,
                root::instanceOperations,
                () -> root.createScanner(table).addScanIterator(new IteratorSetting(1, "sum", "org.tabd.accumulo.core.iterators.user.SummingCombiner")))) {
            UnsupportedOperationException why = thrown("it isn't there", UnsupportedOperationException.class, doing);
            count("and says why", why.getMessage().contains(": "), why);
        }
        AccumuloClient closed = client("root");
        closed.close();
        thrown("a closed client", IllegalStateException.class, () -> closed.tableOperations().flush(table));
        try (AccumuloClient nobody = Tabd.client("127.0.0.1", 1, "root")) {
            thrown("no server", AccumuloException.class, () -> nobody.tableOperations().create("t"));
        }
    }
}
