import java.io.BufferedInputStream;
import java.io.IOException;
import java.time.Duration;
import java.util.ArrayList;
import java.util.HashMap;
import java.util.List;
import java.util.Map;
import org.tabd.accumulo.Tabd;
import org.tabd.accumulo.core.client.AccumuloClient;
import org.tabd.accumulo.core.client.BatchWriter;
import org.tabd.accumulo.core.client.Scanner;
import org.tabd.accumulo.core.client.admin.NewTableConfiguration;
import org.tabd.accumulo.core.data.Key;
import org.tabd.accumulo.core.data.Mutation;
import org.tabd.accumulo.core.data.Range;
import org.tabd.accumulo.core.data.Value;
import org.tabd.accumulo.core.security.Authorizations;
import org.tabd.accumulo.core.security.SystemPermission;
import org.tabd.accumulo.core.security.TablePermission;
import org.tabd.hadoop.io.Text;
import org.tabd.protocol.Address;
import org.tabd.protocol.Cell;
import org.tabd.protocol.Column;
import org.tabd.protocol.RefusedException;
import org.tabd.protocol.Request;
import org.tabd.protocol.RowRange;

/**
 * The driver of the client in Java, by the classes that are Accumulo's wherever a line can be done by them. Its frames are others than a
 * shell's, and what it prints is the same.
 */
public final class AccumuloDriver extends Driver {
    private final Map<String, AccumuloClient> clients = new HashMap<>();

    private AccumuloDriver(Address address, String user, Duration patience) {
        super(address, user, patience);
    }

    public static void main(String[] words) throws IOException {
        new AccumuloDriver(address(words[0]), words[1], patience(words)).run(new BufferedInputStream(System.in));
    }

    private AccumuloClient client() {
        return clients.computeIfAbsent(user, it -> Tabd.client(address, it, patience));
    }

    @Override
    void hangUp(List<String> none) {
        super.hangUp(none);
        clients.values().forEach(AccumuloClient::close);
        clients.clear();
    }

    @Override
    void act(String word, List<String> w) throws RefusedException, Failed, IOException {
        try {
            if (!isDone(word, w)) {
                super.act(word, w);
            }
        } catch (RefusedException | Failed | IOException | RuntimeException fault) {
            throw told(fault);
        } catch (Exception fault) {
            throw told(fault);
        }
    }

    /** The refusal or the connection's fault behind an exception. */
    private static RuntimeException told(Exception fault) throws RefusedException, Failed, IOException {
        for (Throwable why = fault; why != null; why = why.getCause()) {
            if (why instanceof RefusedException refused) {
                throw refused;
            } else if (why instanceof Failed failed) {
                throw failed;
            } else if (why instanceof LineFault) {
                throw (LineFault) why;
            } else if (why instanceof IOException gone) {
                throw new Failed(gone);
            }
        }
        throw new IllegalStateException(fault);
    }

    /** Does a line, or gives false where Accumulo's classes can't. */
    private boolean isDone(String word, List<String> w) throws Exception {
        switch (word) {
            case "createtable" -> {
                return createTable(w);
            }
            case "droptable" -> client().tableOperations().delete(name(count(w, 1).get(0)));
            case "flush" -> client().tableOperations().flush(name(count(w, 1).get(0)));
            case "versions" -> client().tableOperations().setVersions(name(count(w, 2).get(0)), (int) number(w.get(1), 1, 1000));
            case "horizon" -> client().tableOperations().setHorizon(name(count(w, 2).get(0)), time(w.get(1)));
            case "constraints" -> client().tableOperations().setConstraints(name(count(w, 2).get(0)), constraints(w.get(1)));
            case "createuser" -> client().securityOperations().createLocalUser(name(count(w, 1).get(0)), null);
            case "dropuser" -> client().securityOperations().dropLocalUser(name(count(w, 1).get(0)));
            case "setauths" -> client().securityOperations()
                    .changeUserAuthorizations(name(count(w, 2).get(0)), new Authorizations(authorizations(w.get(1))));
            case "grant", "revoke" -> permit(word.equals("grant"), name(count(w, 2, 3).get(0)), permission(w));
            case "insert", "delete" -> {
                return single(word.equals("insert") ? 5 : 4, w);
            }
            case "mutate" -> {
                return mutate(w);
            }
            case "scan" -> {
                return scan(w);
            }
            default -> {
                return false;
            }
        }
        put("ok");
        return true;
    }

    private boolean createTable(List<String> w) throws Exception {
        if (w.size() > 1 && !w.get(1).startsWith("versions=") || w.size() > 2) {
            return false;
        }
        NewTableConfiguration configuration = new NewTableConfiguration();
        if (w.size() == 2) {
            configuration.setVersions((int) number(w.get(1).substring(9), 1, 1000));
        }
        client().tableOperations().create(name(count(w, 1, 2).get(0)), configuration);
        put("ok");
        return true;
    }

    private void permit(boolean grant, String user, org.tabd.protocol.Permission it) throws Exception {
        if (it.table() == null && grant) {
            client().securityOperations().grantSystemPermission(user, SystemPermission.valueOf(it.name()));
        } else if (it.table() == null) {
            client().securityOperations().revokeSystemPermission(user, SystemPermission.valueOf(it.name()));
        } else if (grant) {
            client().securityOperations().grantTablePermission(user, it.table(), TablePermission.valueOf(it.name()));
        } else {
            client().securityOperations().revokeTablePermission(user, it.table(), TablePermission.valueOf(it.name()));
        }
    }

    private boolean single(int parts, List<String> w) throws Exception {
        count(w, parts + 1, parts + 2);
        List<byte[]> column = w.subList(1, parts + 1).stream().map(Driver::byteWord).toList();
        Mutation mutation = new Mutation(column.get(0));
        update(mutation, column.subList(1, parts), w.size() > parts + 1 ? time(w.get(parts + 1)) : null);
        write(name(w.get(0)), mutation);
        return true;
    }

    private static void update(Mutation mutation, List<byte[]> column, Long timestamp) {
        Mutation.Update update = mutation.at().family(column.get(0)).qualifier(column.get(1)).visibility(column.get(2));
        if (timestamp != null) {
            update.timestamp(timestamp);
        }
        if (column.size() == 4) {
            update.put(column.get(3));
        } else {
            update.delete();
        }
    }

    /** A mutation with updates; the super class sees to its form. */
    private boolean mutate(List<String> w) throws Exception {
        List<String> left = new ArrayList<>(w.subList(Math.min(2, w.size()), w.size()));
        if (left.isEmpty()) {
            return false;
        }
        Mutation mutation = new Mutation(byteWord(w.get(1)));
        while (!left.isEmpty()) {
            int parts = left.get(0).equals("put") ? 4 : left.get(0).equals("del") ? 3 : left.size();
            if (left.size() < parts + 2 || left.size() == parts + 3 || left.size() > parts + 2 && !left.get(parts + 2).equals(";")) {
                throw new LineFault();
            }
            String stamp = left.get(parts + 1);
            update(mutation, left.subList(1, parts + 1).stream().map(Driver::byteWord).toList(), stamp.equals("-") ? null : time(stamp));
            left = left.subList(Math.min(left.size(), parts + 3), left.size());
        }
        write(name(w.get(0)), mutation);
        return true;
    }

    private void write(String table, Mutation mutation) throws Exception {
        try (BatchWriter writer = client().createBatchWriter(table)) {
            writer.addMutation(mutation);
        }
        put("ok");
    }

    private boolean scan(List<String> w) throws Exception {
        if (w.size() != 2 && w.size() != 4 && w.size() != 5) {
            throw new LineFault();
        }
        Authorizations authorizations = new Authorizations(authorizations(w.get(1)));
        Range range = new Range();
        if (w.size() > 2) {
            Text low = text(bound(w.get(2)));
            Text high = text(bound(w.get(3)));
            if (low != null && high != null && (low.compareTo(high) > 0 || low.equals(high) && (w.get(2) + w.get(3)).contains("("))) {
                return false; // such a range is refused by the server, and none in Accumulo or an empty one
            }
            range = new Range(low, w.get(2).startsWith("["), high, w.get(3).startsWith("["));
        }
        List<Column> columns = w.size() > 4 ? members(w.get(4)).stream().map(Driver::column).toList() : List.of();
        try (Scanner scanner = client().createScanner(name(w.get(0)), authorizations)) {
            scanner.setRange(range);
            for (Column column : columns) {
                if (column.qualifier() == null) {
                    scanner.fetchColumnFamily(text(column.family()));
                } else {
                    scanner.fetchColumn(text(column.family()), text(column.qualifier()));
                }
            }
            for (Map.Entry<Key, Value> it : scanner) {
                putCells(List.of(cell(it.getKey(), it.getValue())));
            }
        }
        put("end");
        takeNumber(name(w.get(0)));
        return true;
    }

    /** A shell's scan takes a number of the connection on which its sessions are; this one's doesn't. */
    private void takeNumber(String table) throws RefusedException, Failed {
        ask(Request.close(ask(Request.open(table, RowRange.ALL, List.of(), List.of()))));
    }

    private static Text text(byte[] bytes) {
        return bytes == null ? null : new Text(bytes);
    }

    private static Cell cell(Key key, Value value) {
        return new Cell(key.getRowData().toArray(), key.getColumnFamilyData().toArray(), key.getColumnQualifierData().toArray(),
                key.getColumnVisibilityData().toArray(), key.getTimestamp(), value.get());
    }
}
