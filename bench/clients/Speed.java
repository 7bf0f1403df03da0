import com.sun.management.OperatingSystemMXBean;
import java.io.IOException;
import java.lang.management.ManagementFactory;
import java.nio.file.Files;
import java.nio.file.Path;
import java.util.Map.Entry;
import org.tabd.accumulo.Tabd;
import org.tabd.accumulo.core.client.AccumuloClient;
import org.tabd.accumulo.core.client.BatchWriter;
import org.tabd.accumulo.core.client.Scanner;
import org.tabd.accumulo.core.data.Key;
import org.tabd.accumulo.core.data.Mutation;
import org.tabd.accumulo.core.data.Value;
import org.tabd.accumulo.core.security.Authorizations;

/**
 * How many cells a second the client in Java writes and scans: rows of so many cells, whose values have eight bytes, written by one batch
 * writer and scanned by one scanner, three times each; and how much of the processors that takes. Usage: Speed PORT ROWS CELLS PROCESS
 */
public final class Speed {
    private Speed() {}

    /** A moment, and how much of the processors the client and the server had until then, all in nanoseconds. */
    private record Moment(long at, long here, long there) {
        private static final OperatingSystemMXBean SYSTEM = (OperatingSystemMXBean) ManagementFactory.getOperatingSystemMXBean();

        static Moment now(String server) throws IOException {
            // behind the name in parentheses the 12th and 13th words are hundredths of a second of the processors
            String[] words = Files.readString(Path.of("/proc", server, "stat")).replaceAll(".*\\) ", "").split(" ");
            long there = (Long.parseLong(words[11]) + Long.parseLong(words[12])) * 10_000_000;
            return new Moment(System.nanoTime(), SYSTEM.getProcessCpuTime(), there);
        }
    }

    public static void main(String[] words) throws Exception {
        int rows = Integer.parseInt(words[1]);
        int cells = Integer.parseInt(words[2]);
        long total = (long) rows * cells;
        try (AccumuloClient client = Tabd.client("127.0.0.1", Integer.parseInt(words[0]), "root")) {
            for (int round = 0; round < 3; round++) {
                String table = "speed" + round + "x" + cells;
                client.tableOperations().create(table);
                Moment begun = Moment.now(words[3]);
                write(client, table, rows, cells);
                Moment written = Moment.now(words[3]);
                client.tableOperations().flush(table);
                Moment flushed = Moment.now(words[3]);
                long seen = scan(client, table);
                Moment scanned = Moment.now(words[3]);
                if (seen != total) {
                    throw new IllegalStateException(seen + " cells and not " + total);
                }
                System.out.printf("%d cells a row: written %,d a second, scanned %,d a second;", cells, rate(total, written.at - begun.at),
                        rate(total, scanned.at - flushed.at));
                System.out.printf(" processor a cell: writing %d ns here and %d ns there, scanning %d and %d%n", (written.here - begun.here) / total,
                        (written.there - begun.there) / total, (scanned.here - flushed.here) / total, (scanned.there - flushed.there) / total);
                client.tableOperations().delete(table);
            }
        }
    }

    private static void write(AccumuloClient client, String table, int rows, int cells) throws Exception {
        try (BatchWriter writer = client.createBatchWriter(table)) {
            for (int row = 0; row < rows; row++) {
                Mutation mutation = new Mutation(name(row));
                for (int cell = 0; cell < cells; cell++) {
                    mutation.put("family", "q" + cell, 5, "value678");
                }
                writer.addMutation(mutation);
            }
        }
    }

    /** The row of this number: eight digits, without what a format takes. */
    private static byte[] name(int row) {
        byte[] bytes = {'r', 'o', 'w', '0', '0', '0', '0', '0', '0', '0', '0'};
        int left = row;
        for (int at = bytes.length - 1; left > 0; at--) {
            bytes[at] += (byte) (left % 10);
            left /= 10;
        }
        return bytes;
    }

    private static long scan(AccumuloClient client, String table) throws Exception {
        long count = 0;
        try (Scanner scanner = client.createScanner(table, Authorizations.EMPTY)) {
            scanner.setBatchSize(10_000);
            for (Entry<Key, Value> entry : scanner) {
                count += entry.getValue().getSize() == 8 ? 1 : 0;
            }
        }
        return count;
    }

    private static long rate(long count, long nanoseconds) {
        return count * 1_000_000_000 / nanoseconds;
    }
}
