import java.io.BufferedInputStream;
import java.io.BufferedOutputStream;
import java.io.ByteArrayOutputStream;
import java.io.IOException;
import java.io.InputStream;
import java.io.OutputStream;
import java.lang.reflect.RecordComponent;
import java.math.BigInteger;
import java.nio.charset.StandardCharsets;
import java.nio.file.Path;
import java.time.Duration;
import java.util.ArrayList;
import java.util.Arrays;
import java.util.EnumSet;
import java.util.HashMap;
import java.util.List;
import java.util.Map;
import java.util.Set;
import java.util.TreeSet;
import org.tabd.protocol.Address;
import org.tabd.protocol.Batch;
import org.tabd.protocol.Cell;
import org.tabd.protocol.Column;
import org.tabd.protocol.Connection;
import org.tabd.protocol.Constraint;
import org.tabd.protocol.Permission;
import org.tabd.protocol.ProtocolException;
import org.tabd.protocol.Refusal;
import org.tabd.protocol.RefusedException;
import org.tabd.protocol.Request;
import org.tabd.protocol.RequestTooLongException;
import org.tabd.protocol.Rights;
import org.tabd.protocol.RowRange;
import org.tabd.protocol.ServerTimeoutException;
import org.tabd.protocol.Status;
import org.tabd.protocol.Updates;

/** The driver of the client in Java: see suite.py. Usage: Driver PLACE USER [SECONDS] */
public class Driver {
    /** The line is of no form. */
    static final class LineFault extends RuntimeException {
        private static final long serialVersionUID = 1L;

        LineFault() {
            super(null, null, false, false);
        }
    }

    final Address address;
    final Duration patience;
    private final String first;
    private final OutputStream out = new BufferedOutputStream(System.out, 1 << 16);
    private final Map<String, Connection> connections = new HashMap<>();
    String user;

    Driver(Address address, String user, Duration patience) {
        this.address = address;
        this.first = user;
        this.user = user;
        this.patience = patience;
    }

    public static void main(String[] words) throws IOException {
        new Driver(address(words[0]), words[1], patience(words)).run(new BufferedInputStream(System.in));
    }

    static Address address(String place) {
        boolean isPort = place.chars().allMatch(Character::isDigit);
        return isPort ? new Address.Port("127.0.0.1", Integer.parseInt(place)) : new Address.SocketFile(Path.of(place));
    }

    static Duration patience(String[] words) {
        return Duration.ofSeconds(words.length > 2 ? Long.parseLong(words[2]) : 60);
    }

    void run(InputStream in) throws IOException {
        ByteArrayOutputStream line = new ByteArrayOutputStream();
        for (int one = in.read(); one >= 0; one = in.read()) {
            if (one == '\n') {
                answer(line.toString(StandardCharsets.ISO_8859_1));
                out.flush();
                line.reset();
            } else {
                line.write(one);
            }
        }
        connections.values().forEach(Connection::close);
    }

    /** Answers a line, whose bytes are the characters. */
    private void answer(String line) throws IOException {
        List<String> words = new ArrayList<>(List.of(line.split(" ")));
        words.removeIf(String::isEmpty);
        if (words.isEmpty() || line.startsWith("#")) {
            return;
        }
        try {
            act(words.get(0), words.subList(1, words.size()));
        } catch (LineFault fault) {
            put("line fault");
        } catch (RefusedException refused) {
            putRefused(refused.refusal());
        } catch (RequestTooLongException tooLong) {
            put("refused 16 BadFrame toolong");
        } catch (Failed failed) {
            connections.remove(user);
            IOException why = failed.why;
            put("fault", why instanceof ServerTimeoutException ? "timeout" : why instanceof ProtocolException ? "protocol" : "closed");
        }
    }

    /** What the client couldn't do, and not what the driver couldn't print. */
    static final class Failed extends Exception {
        private static final long serialVersionUID = 1L;
        private final transient IOException why;

        Failed(IOException why) {
            super(why);
            this.why = why;
        }
    }

    <T> T ask(Request<T> request) throws RefusedException, Failed {
        try {
            Connection connection = connections.get(user);
            if (connection == null) {
                connection = Connection.open(address, user, patience);
                connections.put(user, connection);
            }
            return connection.ask(request);
        } catch (IOException fault) {
            throw new Failed(fault);
        }
    }

    private void done(Request<Void> request) throws RefusedException, Failed, IOException {
        ask(request);
        put("ok");
    }

    // ---- Lines.

    void act(String word, List<String> w) throws RefusedException, Failed, IOException {
        switch (word) {
            case "as" -> user = name(count(w, 1).get(0));
            case "hangup" -> hangUp(count(w, 0));
            case "createtable" -> done(createTable(w));
            case "droptable" -> done(Request.dropTable(name(count(w, 1).get(0))));
            case "constraints" -> done(Request.setConstraints(name(count(w, 2).get(0)), constraints(w.get(1))));
            case "versions" -> done(Request.setVersions(name(count(w, 2).get(0)), (int) number(w.get(1), 1, 1000)));
            case "horizon" -> done(Request.setHorizon(name(count(w, 2).get(0)), time(w.get(1))));
            case "flush" -> done(Request.flush(name(count(w, 1).get(0))));
            case "compact" -> done(Request.compact(name(count(w, 2).get(0)), oneOf(w.get(1), List.of("partial", "full")).equals("full")));
            case "addsplit" -> done(Request.addSplit(name(count(w, 2).get(0)), byteWord(w.get(1))));
            case "splits" -> splits(name(count(w, 1).get(0)));
            case "status" -> status(name(count(w, 1).get(0)));
            case "rotate" -> rotate(count(w, 0));
            case "createuser" -> done(Request.createUser(name(count(w, 1).get(0))));
            case "dropuser" -> done(Request.dropUser(name(count(w, 1).get(0))));
            case "setauths" -> done(Request.setAuthorizations(name(count(w, 2).get(0)), authorizations(w.get(1))));
            case "grant" -> done(Request.grant(name(count(w, 2, 3).get(0)), permission(w)));
            case "revoke" -> done(Request.revoke(name(count(w, 2, 3).get(0)), permission(w)));
            case "rights" -> rights(name(count(w, 1).get(0)));
            case "insert", "delete" -> single(word.equals("insert") ? 5 : 4, w);
            case "mutate" -> mutate(w);
            case "scan" -> scan(open(w));
            case "open" -> put("session", String.valueOf(ask(open(w))));
            case "next" -> next(whole(count(w, 2).get(0)), whole(w.get(1)));
            case "many" -> many(w);
            case "close" -> done(Request.close(whole(count(w, 1).get(0))));
            default -> throw new LineFault();
        }
    }

    void hangUp(List<String> none) {
        connections.values().forEach(Connection::close);
        connections.clear();
        user = first;
    }

    private void rotate(List<String> none) throws RefusedException, Failed, IOException {
        done(Request.rotate());
    }

    private static Request<Void> createTable(List<String> w) {
        List<String> left = new ArrayList<>(w);
        String table = name(left.isEmpty() ? "" : left.remove(0));
        boolean timed = !left.isEmpty() && left.get(0).startsWith("time=");
        boolean serverTime = timed && oneOf(left.remove(0), List.of("time=any", "time=server")).equals("time=server");
        boolean counted = !left.isEmpty() && left.get(0).startsWith("versions=");
        int versions = counted ? (int) number(left.remove(0).substring(9), 1, 1000) : 1;
        count(left, 0);
        return Request.createTable(table, serverTime, versions);
    }

    private void splits(String table) throws RefusedException, Failed, IOException {
        for (byte[] row : ask(Request.splits(table))) {
            put(spelled(row));
        }
        put("end");
    }

    private void status(String table) throws RefusedException, Failed, IOException {
        Status told = ask(Request.status(table));
        put("tablets", told.tablets() + "", "sources", told.sources() + "", "records", told.records() + "");
    }

    private void rights(String table) throws RefusedException, Failed, IOException {
        Rights told = ask(Request.rights(table));
        put(("system " + String.join(" ", told.system())).strip());
        put(("table " + String.join(" ", told.table())).strip());
        for (byte[] authorization : told.authorizations()) {
            put("auth", spelled(authorization));
        }
        put("end");
    }

    /** A put or a marker: its parts behind table and row, and perhaps a timestamp. */
    private void single(int parts, List<String> w) throws RefusedException, Failed, IOException {
        count(w, parts + 1, parts + 2);
        List<byte[]> column = w.subList(1, parts + 1).stream().map(Driver::byteWord).toList();
        Updates updates = new Updates(64);
        add(updates, column.subList(1, parts), w.size() > parts + 1 ? time(w.get(parts + 1)) : null);
        done(Request.write(name(w.get(0)), column.get(0), updates));
    }

    private static void add(Updates updates, List<byte[]> column, Long timestamp) {
        if (column.size() == 4) {
            updates.put(column.get(0), column.get(1), column.get(2), timestamp, column.get(3));
        } else {
            updates.delete(column.get(0), column.get(1), column.get(2), timestamp);
        }
    }

    private void mutate(List<String> w) throws RefusedException, Failed, IOException {
        if (w.size() < 2) {
            throw new LineFault();
        }
        Updates updates = new Updates(64);
        List<String> left = w.subList(2, w.size());
        while (!left.isEmpty()) {
            int parts = oneOf(left.get(0), List.of("put", "del")).equals("put") ? 4 : 3;
            if (left.size() < parts + 2) {
                throw new LineFault();
            }
            String stamp = left.get(parts + 1);
            List<byte[]> column = left.subList(1, parts + 1).stream().map(Driver::byteWord).toList();
            add(updates, column, stamp.equals("-") ? null : time(stamp));
            left = left.subList(parts + 2, left.size());
            if (left.size() == 1 || !left.isEmpty() && !left.get(0).equals(";")) {
                throw new LineFault();
            }
            left = left.subList(Math.min(1, left.size()), left.size());
        }
        done(Request.write(name(w.get(0)), byteWord(w.get(1)), updates));
    }

    private static Request<Long> open(List<String> w) {
        if (w.size() != 2 && w.size() != 4 && w.size() != 5) {
            throw new LineFault();
        }
        RowRange rows = w.size() > 2 ? range(w.get(2), w.get(3)) : RowRange.ALL;
        List<Column> columns = w.size() > 4 ? members(w.get(4)).stream().map(Driver::column).toList() : List.of();
        return Request.open(name(w.get(0)), rows, columns, authorizations(w.get(1)));
    }

    private void scan(Request<Long> open) throws RefusedException, Failed, IOException {
        long session = ask(open);
        try {
            for (boolean more = true; more; ) {
                Batch batch = ask(Request.next(session, 1000));
                putCells(batch.cells());
                more = batch.more();
            }
            put("end");
        } finally {
            Connection connection = connections.get(user);
            if (!connection.isClosed()) {
                ask(Request.close(session));
            }
        }
    }

    private void next(long session, long count) throws RefusedException, Failed, IOException {
        Batch batch = ask(Request.next(session, count));
        putCells(batch.cells());
        put(batch.more() ? "more" : "end");
    }

    private void many(List<String> w) throws RefusedException, Failed, IOException {
        if (w.size() % 2 != 1) {
            throw new LineFault();
        }
        List<RowRange> ranges = new ArrayList<>();
        for (int at = 1; at < w.size(); at += 2) {
            ranges.add(range(w.get(at), w.get(at + 1)));
        }
        for (List<Cell> cells : ask(Request.many(whole(w.get(0)), ranges))) {
            putCells(cells);
            put("range");
        }
    }

    // ---- Words.

    static List<String> count(List<String> words, Integer... counts) {
        if (!List.of(counts).contains(words.size())) {
            throw new LineFault();
        }
        return words;
    }

    static byte[] byteWord(String word) {
        ByteArrayOutputStream bytes = new ByteArrayOutputStream(word.length());
        if (word.equals("\\e")) {
            return new byte[0];
        }
        for (int at = 0; at < word.length(); at++) {
            char one = word.charAt(at);
            if (one < '!' || one > '~') {
                throw new LineFault();
            }
            if (one != '\\') {
                bytes.write(one);
            } else if (word.startsWith("\\\\", at)) {
                bytes.write('\\');
                at++;
            } else if (word.length() >= at + 4 && word.substring(at, at + 4).matches("\\\\x[0-9a-f]{2}")) {
                bytes.write(Integer.parseInt(word.substring(at + 2, at + 4), 16));
                at += 3;
            } else {
                throw new LineFault();
            }
        }
        if (bytes.size() == 0) {
            throw new LineFault();
        }
        return bytes.toByteArray();
    }

    static String name(String word) {
        String name = new String(byteWord(word), StandardCharsets.ISO_8859_1);
        if (!name.matches("[a-zA-Z0-9_.-]{1,128}")) {
            throw new LineFault();
        }
        return name;
    }

    static List<String> members(String word) {
        return word.equals("\\0") ? List.of() : List.of(word.split(",", -1));
    }

    static Set<byte[]> authorizations(String word) {
        Set<byte[]> found = new TreeSet<>(Arrays::compareUnsigned);
        members(word).forEach(member -> found.add(byteWord(member)));
        return found;
    }

    static String oneOf(String word, List<String> words) {
        if (!words.contains(word)) {
            throw new LineFault();
        }
        return word;
    }

    static Set<Constraint> constraints(String word) {
        Set<Constraint> found = EnumSet.noneOf(Constraint.class);
        for (String member : members(word)) {
            String name = new String(byteWord(member), StandardCharsets.ISO_8859_1);
            found.add(Constraint.valueOf(oneOf(name, List.of("keysize", "alphanum", "numeric", "visibility")).toUpperCase()));
        }
        return found;
    }

    static Permission permission(List<String> w) {
        boolean ofTable = w.size() == 3;
        String name = oneOf(w.get(1), ofTable ? Permission.TABLE : Permission.SYSTEM);
        return new Permission(name, ofTable ? name(w.get(2)) : null);
    }

    static long number(String word, long least, long greatest) {
        if (!word.matches("-?[0-9]+") || word.matches("-0+")) {
            throw new LineFault();
        }
        BigInteger number = new BigInteger(word);
        if (number.compareTo(BigInteger.valueOf(least)) < 0 || number.compareTo(BigInteger.valueOf(greatest)) > 0) {
            throw new LineFault();
        }
        return number.longValue();
    }

    static long whole(String word) {
        return number(word, 0, 0xffff_ffffL);
    }

    static Long time(String word) {
        return number(word, Long.MIN_VALUE, Long.MAX_VALUE);
    }

    static byte[] bound(String word) {
        if (word.equals("\\0")) {
            return null;
        }
        if (!word.startsWith("[") && !word.startsWith("(")) {
            throw new LineFault();
        }
        return byteWord(word.substring(1));
    }

    private static RowRange range(String low, String high) {
        return new RowRange(bound(low), low.startsWith("["), bound(high), high.startsWith("["));
    }

    static Column column(String word) {
        int colon = word.indexOf(':');
        return colon < 0 ? new Column(byteWord(word), null) : new Column(byteWord(word.substring(0, colon)), byteWord(word.substring(colon + 1)));
    }

    // ---- Texts of replies.

    void put(String... words) throws IOException {
        out.write((String.join(" ", words) + "\n").getBytes(StandardCharsets.ISO_8859_1));
    }

    static String spelled(byte[] text) {
        if (text.length == 0) {
            return "\\e";
        }
        StringBuilder word = new StringBuilder(text.length);
        for (byte signed : text) {
            int one = signed & 0xff;
            if (one == '\\') {
                word.append("\\\\");
            } else if (one >= '!' && one <= '~') {
                word.append((char) one);
            } else {
                word.append(String.format("\\x%02x", one));
            }
        }
        return word.toString();
    }

    void putCells(List<Cell> cells) throws IOException {
        for (Cell it : cells) {
            put(spelled(it.row()), spelled(it.family()), spelled(it.qualifier()), spelled(it.label()), it.timestamp() + "", spelled(it.value()));
        }
    }

    private void putRefused(Refusal refusal) throws IOException {
        StringBuilder text = new StringBuilder("refused " + refusal.number() + " " + refusal.getClass().getSimpleName());
        if (refusal instanceof Refusal.ConstraintViolation failed) {
            failed.violations().forEach(it -> text.append(" " + it.constraint().number() + ":" + it.code() + ":" + it.update()));
        } else if (refusal instanceof Refusal.PermissionDenied denied) {
            Permission it = denied.permission();
            text.append(it.table() == null ? " System." + it.name() : " Table." + it.name() + " " + it.table());
        } else {
            for (RecordComponent component : refusal.getClass().getRecordComponents()) {
                text.append(" " + told(refusal, component));
            }
        }
        put(text.toString());
    }

    private static String told(Refusal refusal, RecordComponent component) {
        try {
            Object told = component.getAccessor().invoke(refusal);
            return told instanceof byte[] bytes ? spelled(bytes) : told instanceof Enum<?> word ? word.name().toLowerCase() : told.toString();
        } catch (ReflectiveOperationException fault) {
            throw new IllegalStateException(fault);
        }
    }
}
