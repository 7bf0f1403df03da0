import java.io.IOException;
import java.nio.charset.StandardCharsets;
import java.nio.file.Files;
import java.nio.file.Path;
import java.util.ArrayList;
import java.util.Arrays;
import java.util.Date;
import java.util.HexFormat;
import java.util.Iterator;
import java.util.List;
import java.util.Map;
import java.util.NoSuchElementException;
import java.util.Objects;
import java.util.Properties;
import java.util.TreeMap;
import java.util.function.BiPredicate;
import org.tabd.accumulo.core.client.Accumulo;
import org.tabd.accumulo.core.client.AccumuloClient;
import org.tabd.accumulo.core.client.ConditionalWriter;
import org.tabd.accumulo.core.client.IteratorSetting;
import org.tabd.accumulo.core.client.RowIterator;
import org.tabd.accumulo.core.client.admin.CompactionConfig;
import org.tabd.accumulo.core.client.admin.InstanceOperations;
import org.tabd.accumulo.core.client.admin.NamespaceOperations;
import org.tabd.accumulo.core.client.lexicoder.BytesLexicoder;
import org.tabd.accumulo.core.client.lexicoder.DateLexicoder;
import org.tabd.accumulo.core.client.lexicoder.DoubleLexicoder;
import org.tabd.accumulo.core.client.lexicoder.IntegerLexicoder;
import org.tabd.accumulo.core.client.lexicoder.Lexicoder;
import org.tabd.accumulo.core.client.lexicoder.ListLexicoder;
import org.tabd.accumulo.core.client.lexicoder.LongLexicoder;
import org.tabd.accumulo.core.client.lexicoder.PairLexicoder;
import org.tabd.accumulo.core.client.lexicoder.ReverseLexicoder;
import org.tabd.accumulo.core.client.lexicoder.StringLexicoder;
import org.tabd.accumulo.core.client.lexicoder.UIntegerLexicoder;
import org.tabd.accumulo.core.client.lexicoder.ULongLexicoder;
import org.tabd.accumulo.core.data.Key;
import org.tabd.accumulo.core.data.Mutation;
import org.tabd.accumulo.core.data.Value;
import org.tabd.accumulo.core.security.Authorizations;
import org.tabd.accumulo.core.security.ColumnVisibility;
import org.tabd.accumulo.core.util.ComparablePair;
import org.tabd.hadoop.io.Text;
import org.tabd.protocol.Address;

/** What of the client in Java needs no server: encoders by their order and their bytes, rows of cells, and how a client is made. */
public final class Pieces {
    private static int passed;
    private static int failed;

    /** What may throw anything. */
    @FunctionalInterface
    private interface Doing {
        void run() throws Exception;
    }

    private Pieces() {}

    public static void main(String[] words) throws Exception {
        numbers();
        others();
        rows();
        keys();
        authorizations();
        clients();
        absent();
        System.out.println(passed + " passed, " + failed + " failed");
        System.exit(failed == 0 ? 0 : 1);
    }

    private static void same(String name, Object told, Object wanted) {
        if (Objects.equals(told, wanted)) {
            passed++;
        } else {
            failed++;
            System.out.println("FAILED: " + name + ": " + told + " and not " + wanted);
        }
    }

    private static void said(String name, Class<? extends Exception> kind, String text, Doing doing) {
        try {
            doing.run();
            same(name, "nothing is thrown", text);
        } catch (Exception fault) {
            same(name, fault.getClass() + " " + fault.getMessage(), kind + " " + text);
        }
    }

    private static String hex(byte[] bytes) {
        return HexFormat.of().formatHex(bytes);
    }

    // ---- Encoders.

    /** These rise, so their bytes do, and decode to them, also inside of an array. */
    private static <T> void rising(String name, Lexicoder<T> lexicoder, List<T> values, BiPredicate<T, T> equal) {
        List<T> wrong = new ArrayList<>();
        byte[] before = null;
        for (T value : values) {
            byte[] bytes = lexicoder.encode(value);
            byte[] inside = new byte[bytes.length + 3];
            System.arraycopy(bytes, 0, inside, 2, bytes.length);
            boolean isRead = equal.test(lexicoder.decode(bytes), value) && equal.test(lexicoder.decode(inside, 2, bytes.length), value);
            if (!isRead || before != null && Arrays.compareUnsigned(before, bytes) >= 0) {
                wrong.add(value);
            }
            before = bytes;
        }
        same(name + ", " + values.size() + " values", wrong, List.of());
    }

    private static <T> void rising(String name, Lexicoder<T> lexicoder, List<T> values) {
        rising(name, lexicoder, values, Object::equals);
    }

    /** Numbers near the powers of two, of both signs. */
    private static List<Long> longs(int bits) {
        List<Long> found = new ArrayList<>();
        for (int bit = 0; bit < bits - 1; bit++) {
            for (long near = -1; near < 2; near++) {
                found.add((1L << bit) + near);
                found.add(-(1L << bit) + near);
            }
        }
        long least = bits == 64 ? Long.MIN_VALUE : Integer.MIN_VALUE;
        found.addAll(List.of(least, ~least));
        return found.stream().filter(it -> it >= least && it <= ~least).distinct().sorted().toList();
    }

    private static void numbers() {
        List<Integer> ints = longs(32).stream().map(Long::intValue).toList();
        rising("Long", new LongLexicoder(), longs(64));
        rising("Integer", new IntegerLexicoder(), ints);
        rising("ULong", new ULongLexicoder(), longs(64).stream().sorted(Long::compareUnsigned).toList());
        rising("UInteger", new UIntegerLexicoder(), ints.stream().sorted(Integer::compareUnsigned).toList());
        rising("Date", new DateLexicoder(), longs(64).stream().map(Date::new).toList());
        rising("Double", new DoubleLexicoder(), List.of(Double.NEGATIVE_INFINITY, -Double.MAX_VALUE, -2.5, -1.0, -Double.MIN_VALUE, -0.0, 0.0,
                Double.MIN_VALUE, 0.1, 1.0, 2.5, Double.MAX_VALUE, Double.POSITIVE_INFINITY, Double.NaN));
        same("a long of 0", hex(new LongLexicoder().encode(0L)), "088000000000000000");
        same("a long of 1", hex(new LongLexicoder().encode(1L)), "088000000000000001");
        same("a long of -1", hex(new LongLexicoder().encode(-1L)), "087fffffffffffffff");
        same("the least long", hex(new LongLexicoder().encode(Long.MIN_VALUE)), "00");
        same("the greatest long", hex(new LongLexicoder().encode(Long.MAX_VALUE)), "10");
        same("an unsigned long of 0", hex(new ULongLexicoder().encode(0L)), "00");
        same("an unsigned long of 258", hex(new ULongLexicoder().encode(258L)), "020102");
        same("an unsigned long of -2", hex(new ULongLexicoder().encode(-2L)), "0ffe");
        same("an int of 0", hex(new IntegerLexicoder().encode(0)), "0480000000");
        same("an unsigned int of -1", hex(new UIntegerLexicoder().encode(-1)), "08");
        same("a double of 1", hex(new DoubleLexicoder().encode(1.0)), "08bff0000000000000");
        same("a double of -1", hex(new DoubleLexicoder().encode(-1.0)), "08400fffffffffffff");
        for (String wrong : List.of("", "01", "0201", "11", "ff", "0900")) {
            byte[] bytes = HexFormat.of().parseHex(wrong);
            said("no number " + wrong, IllegalArgumentException.class, "Unexpected length " + (wrong.isEmpty() ? 255 : bytes[0] & 0xff),
                    () -> new ULongLexicoder().decode(bytes));
        }
    }

    private static void others() {
        List<String> strings = List.of("", "\0", "\0\0", "\0\1", "\0a", "\1", "\1\0", "\1\1", "\1\2", "\2", "a", "aa", "b", "\u00fc");
        rising("String", new StringLexicoder(), strings);
        rising("Bytes", new BytesLexicoder(), strings.stream().map(it -> it.getBytes(StandardCharsets.UTF_8)).toList(), Arrays::equals);
        List<String> falling = strings.stream().sorted((one, other) -> -Arrays.compareUnsigned(one.getBytes(StandardCharsets.UTF_8),
                other.getBytes(StandardCharsets.UTF_8))).toList();
        rising("Reverse", new ReverseLexicoder<>(new StringLexicoder()), falling);
        rising("Reverse twice", new ReverseLexicoder<>(new ReverseLexicoder<>(new StringLexicoder())), strings);
        List<ComparablePair<String, Long>> pairs = new ArrayList<>();
        List<List<String>> lists = new ArrayList<>();
        for (String one : strings) {
            for (Long number : List.of(Long.MIN_VALUE, -1L, 0L, 1L)) {
                pairs.add(new ComparablePair<>(one, number));
            }
            lists.add(List.of(one));
            strings.forEach(other -> lists.add(List.of(one, other)));
        }
        same("pairs rise", pairs.stream().sorted().toList(), pairs);
        rising("Pair", new PairLexicoder<>(new StringLexicoder(), new LongLexicoder()), pairs);
        rising("List", new ListLexicoder<>(new StringLexicoder()), lists);
        same("a pair's bytes", hex(new PairLexicoder<>(new StringLexicoder(), new StringLexicoder()).encode(new ComparablePair<>("a\0", "\1"))),
                "610101" + "00" + "0102");
        same("a reversed one's bytes", hex(new ReverseLexicoder<>(new StringLexicoder()).encode("a\0")), "9efefeff");
        said("no members", IllegalArgumentException.class, "ListLexicoder does not support empty lists",
                () -> new ListLexicoder<>(new StringLexicoder()).encode(List.of()));
        said("three parts", IllegalArgumentException.class, "Data does not have 2 fields, it has 3",
                () -> new PairLexicoder<>(new StringLexicoder(), new StringLexicoder()).decode(new byte[] {'a', 0, 'b', 0}));
        said("a cut escape", IllegalArgumentException.class, "an escape is cut",
                () -> new ListLexicoder<>(new StringLexicoder()).decode(new byte[] {1}));
        said("nothing reversed", IllegalArgumentException.class, "a reversed value ends by 0xff",
                () -> new ReverseLexicoder<>(new StringLexicoder()).decode(new byte[] {0}));
    }

    // ---- Cells.

    private static void rows() {
        Map<Key, Value> cells = new TreeMap<>();
        for (String word : List.of("a f", "a g", "b f", "c f", "c g", "c h")) {
            cells.put(new Key(word.substring(0, 1), word.substring(2)), new Value(word));
        }
        List<String> seen = new ArrayList<>();
        new RowIterator(cells.entrySet()).forEachRemaining(row -> {
            seen.add("row");
            row.forEachRemaining(cell -> seen.add(cell.getValue().toString()));
        });
        same("row by row", seen, List.of("row", "a f", "a g", "row", "b f", "row", "c f", "c g", "c h"));
        RowIterator firsts = new RowIterator(cells.entrySet().iterator());
        List<String> first = new ArrayList<>();
        while (firsts.hasNext()) {
            first.add(firsts.next().next().getValue().toString());
        }
        same("the first cell of each", first, List.of("a f", "b f", "c f"));
        same("how many cells", firsts.getKVCount(), 6L);
        said("no row more", NoSuchElementException.class, null, firsts::next);
        RowIterator rows = new RowIterator(cells.entrySet());
        Iterator<Map.Entry<Key, Value>> row = rows.next();
        rows.next();
        said("a row that is passed over", IllegalStateException.class, "SingleRowIter no longer valid", row::hasNext);
        said("no cells", NoSuchElementException.class, null, () -> new RowIterator(List.of()).next());
    }

    private static void keys() {
        byte[] row = {'r'};
        Key built = Key.builder().row(row).family("f").qualifier(new Text("q")).visibility(new ColumnVisibility("A")).timestamp(5).build();
        row[0] = 's';
        same("a key in parts", built, new Key("r", "f", "q", "A", 5));
        same("and without most of them", Key.builder().row("r").build(), new Key("r"));
        same("a marker's", Key.builder().row(new Text("r")).family(row).qualifier(row).visibility("B").deleted(true).build().toString(),
                "r s:s [B] 9223372036854775807 true");
    }

    private static void authorizations() {
        Authorizations both = new Authorizations("b,c", "a");
        same("in one text", both.serialize(), "!AUTH1:YQ==,Yixj");
        same("and read again", new Authorizations(both.getAuthorizationsArray()), both);
        same("none", new Authorizations(Authorizations.EMPTY.getAuthorizationsArray()), Authorizations.EMPTY);
        same("in the older form", new Authorizations("a, b".getBytes(StandardCharsets.UTF_8)), new Authorizations("a", "b"));
        same("none in the older form", new Authorizations(new byte[0]), Authorizations.EMPTY);
    }

    // ---- Clients.

    private static void clients() throws IOException {
        same("a port", Address.of("host:9997"), new Address.Port("host", 9997));
        same("a socket file", Address.of("/run/tabd.sock"), new Address.SocketFile(Path.of("/run/tabd.sock")));
        for (String place : Arrays.asList("zk1:2181,zk2:2181", "host", "host:", null)) {
            said("no server " + place, IllegalArgumentException.class,
                    "not a server, which is HOST:PORT or the path of a socket file: " + place, () -> Accumulo.newClient().to("i", place).as("ann", "").build());
        }
        try (AccumuloClient ann = Accumulo.newClient().to("tabd", "127.0.0.1:9997").as("ann", "").build()) {
            same("who asks", ann.whoami(), "ann");
        }
        Properties properties = new Properties();
        properties.setProperty("instance.zookeepers", "/run/tabd.sock");
        properties.setProperty("auth.principal", "bob");
        Path file = Files.createTempFile("client", ".properties");
        Files.writeString(file, "instance.name=i\ninstance.zookeepers = 127.0.0.1:9997\nauth.principal=eve\n");
        try (AccumuloClient bob = Accumulo.newClient().from(properties).build();
                AccumuloClient eve = Accumulo.newClient().from(file.toString()).build()) {
            same("by properties, and by a file", bob.whoami() + " " + eve.whoami(), "bob eve");
        }
        Files.delete(file);
        said("no file", IllegalArgumentException.class, "Failed to load properties from " + file, () -> Accumulo.newClient().from(file));
        said("nobody", IllegalArgumentException.class, "not a name, which is 1 to 128 of a-z A-Z 0-9 _ - . : null",
                () -> Accumulo.newClient().to("i", "h:1").build());
    }

    private static void absent() {
        said("a namespace", UnsupportedOperationException.class, "create: a server has no namespaces; a dot in a table's name is a dot",
                () -> new NamespaceOperations() {}.create("n"));
        said("servers", UnsupportedOperationException.class, "getTabletServers: a server is one process, and has no other",
                () -> new InstanceOperations() {}.getTabletServers());
        said("a condition", UnsupportedOperationException.class, "write: a server has no request for a write under a condition",
                () -> new ConditionalWriter() {}.write(new Mutation("r")));
        CompactionConfig config = new CompactionConfig().setStartRow(new Text("a")).setEndRow(null).setFlush(false).setWait(true).setIterators(List.of());
        same("a compaction", config.getStartRow() + " " + config.getEndRow() + " " + config.getFlush() + " " + config.getWait() + config.getIterators(),
                "a null false true[]");
        said("its iterators", UnsupportedOperationException.class,
                "setIterators: a compaction runs no iterators but those that a server always runs",
                () -> config.setIterators(List.of(new IteratorSetting(1, "n", "c"))));
        said("its hints", UnsupportedOperationException.class, "setExecutionHints: a server takes no hints where it compacts",
                () -> config.setExecutionHints(Map.of()));
    }
}
