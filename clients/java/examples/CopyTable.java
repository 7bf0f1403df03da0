import java.util.Map.Entry;
import org.apache.accumulo.core.client.Accumulo;
import org.apache.accumulo.core.client.AccumuloClient;
import org.apache.accumulo.core.client.Scanner;
import org.apache.accumulo.core.data.Key;
import org.apache.accumulo.core.data.Value;

/**
 * Copies the cells of a cluster's table, with their labels and times, into the table of that name of a server of tabd, which has to be
 * there: all that the cluster shows its user. Both clients are in one program, as their packages differ.
 *
 * <p>Usage: {@code CopyTable accumulo-client.properties TABLE SERVER USER}, where SERVER is HOST:PORT or the path of a socket file
 */
public class CopyTable {
    private CopyTable() {}

    public static void main(String[] args) throws Exception {
        long copied = 0;
        try (AccumuloClient cluster = Accumulo.newClient().from(args[0]).build();
                Scanner scanner = cluster.createScanner(args[1]);
                org.tabd.accumulo.core.client.AccumuloClient server =
                        org.tabd.accumulo.core.client.Accumulo.newClient().to("tabd", args[2]).as(args[3], "").build();
                org.tabd.accumulo.core.client.BatchWriter writer = server.createBatchWriter(args[1])) {
            for (Entry<Key, Value> cell : scanner) {
                writer.addMutation(mutation(cell.getKey(), cell.getValue().get()));
                copied++;
            }
        }
        System.out.println(copied + " cells are copied");
    }

    private static org.tabd.accumulo.core.data.Mutation mutation(Key key, byte[] value) {
        return new org.tabd.accumulo.core.data.Mutation(key.getRowData().toArray()).at()
                .family(key.getColumnFamilyData().toArray())
                .qualifier(key.getColumnQualifierData().toArray())
                .visibility(key.getColumnVisibilityData().toArray())
                .timestamp(key.getTimestamp())
                .put(value);
    }
}
