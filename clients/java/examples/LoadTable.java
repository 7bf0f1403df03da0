import java.io.BufferedReader;
import java.io.ByteArrayOutputStream;
import java.io.IOException;
import java.io.InputStreamReader;
import java.nio.charset.StandardCharsets;
import java.util.ArrayList;
import java.util.List;
import org.apache.accumulo.core.client.Accumulo;
import org.apache.accumulo.core.client.AccumuloClient;
import org.apache.accumulo.core.client.BatchWriter;
import org.apache.accumulo.core.client.MutationsRejectedException;
import org.apache.accumulo.core.client.TableNotFoundException;
import org.apache.accumulo.core.data.Mutation;

/**
 * Writes the cells of lines of Accumulo's shell, as {@code tabd export --accumulo} prints them, by batch writers: many times as fast as
 * the shell, which flushes each line. It takes the lines {@code insert} and {@code delete}, also those that are left out for their labels,
 * for the table of the {@code createtable} or {@code table} line before them, which has to be there: docs/ACCUMULO.md says which lines a
 * shell takes before and behind. A line that fails is reported, and the next one taken; the status is 1 then.
 *
 * <p>Usage: {@code LoadTable accumulo-client.properties <night.shell}
 */
public class LoadTable {
    private static final String LEFT_OUT = "# left out, its label would be another: ";
    private static final String ONE_VERSION = "table.iterator.scan.vers.opt.maxVersions=1,";
    /** So many lines, and so many characters of them, are written together at most. */
    private static final int LINES = 10_000;
    private static final int CHARACTERS = 1 << 23;

    /** A mutation, and the line that says it. */
    private record Update(long number, String line, Mutation mutation) {}

    private final AccumuloClient client;
    private final List<Update> gathered = new ArrayList<>();
    private String table;
    private boolean isOfOneVersion;
    private BatchWriter writer;
    private int together = 1;
    private int characters;
    private long number;
    private long written;
    private long passed;
    private long faults;

    private LoadTable(AccumuloClient client) {
        this.client = client;
    }

    public static void main(String[] args) throws Exception {
        try (AccumuloClient client = Accumulo.newClient().from(args[0]).build();
                BufferedReader lines = new BufferedReader(new InputStreamReader(System.in, StandardCharsets.ISO_8859_1))) {
            LoadTable load = new LoadTable(client);
            for (String line = lines.readLine(); line != null; line = lines.readLine()) {
                load.take(line);
            }
            load.enter(null, false);
            System.out.println(load.written + " cells and deletes are written, " + load.passed + " other lines are passed over");
            if (load.faults > 0) {
                System.exit(1);
            }
        }
    }

    private void take(String all) {
        String line = all.startsWith(LEFT_OUT) ? all.substring(LEFT_OUT.length()) : all;
        number++;
        try {
            List<byte[]> words = line.startsWith("#") ? List.of() : words(line);
            String first = words.isEmpty() ? "" : text(words.get(0));
            switch (first) {
                case "insert", "delete" -> {
                    gather(new Update(number, line, mutation(first, words)));
                    return;
                }
                case "createtable", "table" -> enter(words.size() < 2 ? null : text(words.get(1)), line.contains(ONE_VERSION));
                case "notable" -> enter(null, false);
                default -> { }
            }
            passed++;
        } catch (IOException | TableNotFoundException fault) {
            report("line " + number, fault, line);
        }
    }

    private void report(String where, Exception fault, String line) {
        faults++;
        System.err.println(where + ": " + fault.getMessage() + (line == null ? "" : ": " + line));
    }

    /** Leaves the table, and enters another one, or none. */
    private void enter(String next, boolean hasOneVersion) throws TableNotFoundException {
        writeGathered();
        close();
        table = null;
        if (next != null) {
            writer = client.createBatchWriter(next);
            isOfOneVersion = hasOneVersion;
            together = 1;
            table = next;
        }
    }

    private void close() {
        try {
            if (writer != null) {
                writer.close();
            }
        } catch (MutationsRejectedException again) {
            // it was told when it was flushed
        }
        writer = null;
    }

    // ---- Writing.

    private void gather(Update update) throws IOException {
        if (table == null) {
            throw new IOException("no table stands before this line");
        }
        gathered.add(update);
        characters += update.line().length();
        if (gathered.size() >= together || characters >= CHARACTERS) {
            writeGathered();
        }
    }

    /**
     * Writes what is gathered. Which of it was refused isn't told, so where the table shows one version each line is written again by
     * itself. A table of more would count such a cell twice, so there the lines are reported together, and few of the next ones gathered.
     */
    private void writeGathered() {
        if (gathered.isEmpty()) {
            return;
        }
        List<Update> updates = List.copyOf(gathered);
        gathered.clear();
        characters = 0;
        Exception fault = write(updates);
        together = fault == null ? Math.min(2 * together, LINES) : 1;
        if (fault != null && updates.size() > 1 && isOfOneVersion) {
            for (Update update : updates) {
                report(update, write(List.of(update)));
            }
        } else if (fault != null && updates.size() > 1) {
            long last = updates.get(updates.size() - 1).number();
            report("lines " + updates.get(0).number() + " to " + last + " are written in part", fault, null);
        } else if (fault != null) {
            report(updates.get(0), fault);
        }
    }

    private void report(Update update, Exception fault) {
        if (fault != null) {
            report("line " + update.number(), fault, update.line());
        }
    }

    /** Writes them, and gives the fault, behind which the writer would be refused too: the next one is another. */
    private Exception write(List<Update> updates) {
        try {
            writer = writer == null ? client.createBatchWriter(table) : writer;
            for (Update update : updates) {
                writer.addMutation(update.mutation());
            }
            writer.flush();
            written += updates.size();
            return null;
        } catch (MutationsRejectedException | TableNotFoundException | IllegalArgumentException fault) {
            close();
            return fault;
        }
    }

    // ---- Reading.

    private static Mutation mutation(String first, List<byte[]> words) throws IOException {
        boolean isInsert = first.equals("insert");
        boolean isFormed = words.size() == (isInsert ? 10 : 9) && text(words.get(1)).equals("-l") && text(words.get(3)).equals("-ts")
                && text(words.get(5)).equals("--");
        if (!isFormed) {
            throw new IOException("not " + first + " -l LABEL -ts TIME -- ROW FAMILY QUALIFIER" + (isInsert ? " VALUE" : ""));
        }
        Mutation mutation = new Mutation(words.get(6));
        var update = mutation.at().family(words.get(7)).qualifier(words.get(8)).visibility(words.get(2)).timestamp(time(words.get(4)));
        return isInsert ? update.put(words.get(9)) : update.delete();
    }

    private static long time(byte[] word) throws IOException {
        try {
            return Long.parseLong(text(word));
        } catch (NumberFormatException fault) {
            throw new IOException("not a time: " + text(word), fault);
        }
    }

    private static String text(byte[] word) {
        return new String(word, StandardCharsets.ISO_8859_1);
    }

    /** The words of a line: between spaces, or between double quotes, where a backslash begins an escape. */
    private static List<byte[]> words(String line) throws IOException {
        List<byte[]> words = new ArrayList<>();
        int at = 0;
        while (at < line.length()) {
            ByteArrayOutputStream word = new ByteArrayOutputStream();
            boolean quoted = line.charAt(at) == '"';
            at += quoted ? 1 : 0;
            while (at < line.length() && line.charAt(at) != (quoted ? '"' : ' ')) {
                if (line.startsWith("\\x", at)) {
                    word.write(16 * digit(line, at + 2) + digit(line, at + 3));
                    at += 4;
                } else {
                    at += line.startsWith("\\", at) && at + 1 < line.length() ? 1 : 0;
                    word.write(line.charAt(at++));
                }
            }
            if (quoted && at == line.length()) {
                throw new IOException("a quote isn't closed");
            }
            words.add(word.toByteArray());
            at += quoted ? 2 : 1;
        }
        return words;
    }

    private static int digit(String line, int at) throws IOException {
        int digit = at < line.length() ? Character.digit(line.charAt(at), 16) : -1;
        if (digit < 0) {
            throw new IOException("behind \\x two digits are missing");
        }
        return digit;
    }
}
