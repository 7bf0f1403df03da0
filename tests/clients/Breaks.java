import java.io.DataInputStream;
import java.io.IOException;
import java.io.OutputStream;
import java.net.ServerSocket;
import java.net.Socket;
import java.time.Duration;
import java.util.ArrayList;
import java.util.Iterator;
import java.util.List;
import java.util.Map;
import java.util.concurrent.BlockingQueue;
import java.util.concurrent.CountDownLatch;
import java.util.concurrent.FutureTask;
import java.util.concurrent.LinkedBlockingQueue;
import java.util.concurrent.TimeUnit;
import org.tabd.accumulo.Tabd;
import org.tabd.accumulo.core.client.AccumuloClient;
import org.tabd.accumulo.core.client.BatchScanner;
import org.tabd.accumulo.core.client.Scanner;
import org.tabd.accumulo.core.client.TimedOutException;
import org.tabd.accumulo.core.data.Key;
import org.tabd.accumulo.core.data.Range;
import org.tabd.accumulo.core.data.Value;
import org.tabd.accumulo.core.security.Authorizations;
import org.tabd.protocol.Address;
import org.tabd.protocol.Batch;
import org.tabd.protocol.Connection;
import org.tabd.protocol.ConnectionClosedException;
import org.tabd.protocol.Pending;
import org.tabd.protocol.RefusedException;
import org.tabd.protocol.Request;
import org.tabd.protocol.Status;
import org.tabd.protocol.Updates;

/**
 * What breaks into the client in Java while others use it: ends, resets, closes and interrupts. What was answered is given, whatever comes
 * behind it, and nobody waits for what doesn't come.
 */
public final class Breaks {
    private static final byte[] OK = {(byte) 0x80};
    private static final byte[] MORE = {(byte) 0x83, 0};
    private static final byte[] END = {(byte) 0x83, 1};
    private static final byte[] RANGE_END = {(byte) 0x86};
    private static final byte[] OPENED = {(byte) 0x84, 0, 0, 0, 7};
    private static final byte[] RIGHTS = {(byte) 0x88, -1, 31, 0, 0, 0, 0};
    private static final byte[] NO_MEMORY = {(byte) 0x81, 17};
    private static final byte[] STATUS = new byte[25];
    private static final int TURNS = 60;
    private static int passed;
    private static int failed;

    static {
        STATUS[0] = (byte) 0x87;
        STATUS[8] = 3;
    }

    /** What may throw anything. */
    @FunctionalInterface
    private interface Doing {
        void run() throws Exception;
    }

    private Breaks() {}

    public static void main(String[] words) {
        part("answered, and then reset", () -> pipelined(true));
        part("answered, and then ended", () -> pipelined(false));
        part("a scan that is ended behind its first cells", Breaks::scans);
        part("rows that are ended behind the first ones", Breaks::rows);
        part("a scan without a session", Breaks::opening);
        part("a request that is sent by an interrupted thread", Breaks::interrupted);
        part("a scanner that is closed by an interrupted thread", Breaks::closing);
        part("a client that is closed while it is connected", Breaks::connecting);
        part("a client that is closed while an answer is waited for", Breaks::awaiting);
        part("a server that refuses before it is asked", Breaks::refusing);
        System.out.println(passed + " passed, " + failed + " failed");
        System.exit(failed == 0 ? 0 : 1);
    }

    private static void part(String name, Doing part) {
        try {
            part.run();
            passed++;
        } catch (Exception | Error fault) {
            failed++;
            System.out.println("FAILED: " + name);
            fault.printStackTrace(System.out);
        }
    }

    private static void demand(boolean holds, Object told) {
        if (!holds) {
            throw new AssertionError(told);
        }
    }

    // ---- A server whose connections do what a test says.

    /** One connection: what is told, and what is heard. */
    private static final class Stream {
        private final Socket socket;
        private final DataInputStream in;
        private final OutputStream out;

        Stream(Socket socket) throws IOException {
            this.socket = socket;
            in = new DataInputStream(socket.getInputStream());
            out = socket.getOutputStream();
        }

        byte[] hear() throws IOException {
            return in.readNBytes(in.readInt());
        }

        /** Hears a request, and answers it by these frames. */
        void answer(byte[]... frames) throws IOException {
            hear();
            tell(frames);
        }

        void tell(byte[]... frames) throws IOException {
            int length = 0;
            for (byte[] frame : frames) {
                length += 4 + frame.length;
            }
            java.nio.ByteBuffer all = java.nio.ByteBuffer.allocate(length);
            for (byte[] frame : frames) {
                all.putInt(frame.length).put(frame);
            }
            out.write(all.array());
        }

        void end(boolean isReset) throws IOException {
            if (isReset) {
                socket.setSoLinger(true, 0);
                socket.close();
            } else {
                socket.shutdownOutput();
            }
        }

        /** Reads to the end of what the client says. */
        void hearOut() throws IOException {
            in.transferTo(OutputStream.nullOutputStream());
        }
    }

    /** What a connection does. */
    @FunctionalInterface
    private interface Act {
        void on(Stream stream) throws Exception;
    }

    private static final class StandIn implements AutoCloseable {
        private final ServerSocket listener = new ServerSocket(0);
        private final Act act;

        StandIn(Act act) throws IOException {
            this.act = act;
            started(this::serve);
        }

        Address address() {
            return new Address.Port("127.0.0.1", listener.getLocalPort());
        }

        Connection connection() throws IOException {
            return Connection.open(address(), "root", Duration.ofSeconds(30));
        }

        AccumuloClient client() {
            return Tabd.client(address(), "root", Duration.ofSeconds(30));
        }

        private void serve() {
            try {
                while (true) {
                    Socket socket = listener.accept();
                    started(() -> serve(socket));
                }
            } catch (IOException closed) {
                // it is over
            }
        }

        private void serve(Socket socket) {
            try (socket) {
                act.on(new Stream(socket));
            } catch (Exception ended) {
                // by the client
            }
        }

        @Override
        public void close() throws IOException {
            listener.close();
        }
    }

    private static Thread started(Runnable work) {
        Thread thread = new Thread(work);
        thread.setDaemon(true);
        thread.start();
        return thread;
    }

    private static byte[] cell(String row) {
        java.nio.ByteBuffer frame = java.nio.ByteBuffer.allocate(33 + row.length());
        frame.put((byte) 0x82).putInt(row.length()).put(row.getBytes(java.nio.charset.StandardCharsets.US_ASCII));
        frame.putInt(1).put((byte) 'f').putInt(1).put((byte) 'q').putInt(0).putLong(5).putInt(1).put((byte) 'v');
        return java.util.Arrays.copyOf(frame.array(), frame.position());
    }

    // ---- Tests.

    /** Of two requests the first is answered, then the connection ends; the second is sent meanwhile. */
    private static void pipelined(boolean isReset) throws Exception {
        try (StandIn server = new StandIn(stream -> {
            stream.answer(OK);
            stream.answer(STATUS);
            stream.end(isReset);
        })) {
            for (int turn = 0; turn < TURNS; turn++) {
                try (Connection connection = server.connection()) {
                    Pending<Status> answered = connection.send(Request.status("t"));
                    Updates updates = new Updates(100);
                    updates.put(new byte[1], new byte[1], new byte[0], 5L, new byte[turn % 3 * 3_000_000]);
                    Throwable second = null;
                    try {
                        connection.ask(Request.write("t", new byte[1], updates));
                    } catch (IOException fault) {
                        second = fault;
                    }
                    demand(answered.await().tablets() == 3, turn);
                    demand(second instanceof ConnectionClosedException, second);
                }
            }
        }
    }

    /** Gives the rows that are shown before a fault. */
    private static List<String> rowsOf(Iterator<Map.Entry<Key, Value>> cells) {
        List<String> rows = new ArrayList<>();
        try {
            cells.forEachRemaining(cell -> rows.add(cell.getKey().getRow().toString()));
            rows.add("end");
        } catch (RuntimeException fault) {
            rows.add("fault");
        }
        return rows;
    }

    private static void scans() throws Exception {
        try (StandIn server = new StandIn(stream -> {
            stream.answer(OK);
            stream.answer(RIGHTS);
            stream.answer(OPENED);
            stream.answer(cell("a"), cell("b"), MORE);
            stream.end(true);
        })) {
            for (int turn = 0; turn < TURNS; turn++) {
                try (AccumuloClient client = server.client(); Scanner scanner = client.createScanner("t", Authorizations.EMPTY)) {
                    scanner.setBatchSize(2);
                    Iterator<Map.Entry<Key, Value>> cells = scanner.iterator();
                    List<String> rows = rowsOf(cells);
                    demand(rows.equals(List.of("a", "b", "fault")), rows);
                }
            }
        }
    }

    private static void rows() throws Exception {
        byte[][] told = new byte[102][];
        java.util.Arrays.fill(told, RANGE_END);
        told[0] = cell("a");
        told[101] = END;
        try (StandIn server = new StandIn(stream -> {
            stream.answer(OK);
            stream.answer(RIGHTS);
            stream.answer(OPENED);
            stream.answer(told);
            stream.end(true);
        })) {
            List<Range> ranges = new ArrayList<>(List.of(new Range("a")));
            for (int row = 0; row < 150; row++) {
                ranges.add(new Range("b" + row));
            }
            for (int turn = 0; turn < TURNS; turn++) {
                try (AccumuloClient client = server.client(); BatchScanner scanner = client.createBatchScanner("t", Authorizations.EMPTY)) {
                    scanner.setRanges(ranges);
                    List<String> rows = rowsOf(scanner.iterator());
                    demand(rows.equals(List.of("a", "fault")), rows);
                }
            }
        }
    }

    /** A scanner's time is kept, also where the server doesn't open a session; once it does, that is closed. */
    private static void opening() throws Exception {
        CountDownLatch open = new CountDownLatch(1);
        BlockingQueue<byte[]> heard = new LinkedBlockingQueue<>();
        try (StandIn server = new StandIn(stream -> {
            stream.answer(OK);
            stream.answer(RIGHTS);
            stream.hear();
            open.await();
            stream.tell(OPENED);
            heard.add(stream.hear());
            stream.hearOut();
        }); AccumuloClient client = server.client(); Scanner scanner = client.createScanner("t", Authorizations.EMPTY)) {
            scanner.setTimeout(100, TimeUnit.MILLISECONDS);
            long begun = System.nanoTime();
            try {
                scanner.iterator().hasNext();
                demand(false, "no time is over");
            } catch (TimedOutException late) {
                demand(System.nanoTime() - begun < 15_000_000_000L, "it took longer");
            }
            open.countDown();
            byte[] close = heard.poll(20, TimeUnit.SECONDS);
            demand(close != null && close[0] == 0x0e && close[4] == 7, "no session is closed");
        }
    }

    private static void interrupted() throws Exception {
        try (StandIn server = new StandIn(stream -> {
            stream.answer(OK);
            Thread.sleep(200);
            stream.answer(OK);
            stream.answer(STATUS);
            stream.hearOut();
        }); Connection connection = server.connection()) {
            Updates updates = new Updates(100);
            updates.put(new byte[1], new byte[1], new byte[0], 5L, new byte[8_000_000]);
            Thread.currentThread().interrupt();
            Pending<Void> write = connection.send(Request.write("t", new byte[1], updates));
            demand(Thread.interrupted(), "the interrupt is forgotten");
            write.await();
            Thread.currentThread().interrupt();
            Pending<Status> status = connection.send(Request.status("t"));
            try {
                status.await();
            } catch (java.io.InterruptedIOException expected) {
                demand(Thread.interrupted(), "the interrupt is forgotten");
            }
            Thread.interrupted();
            demand(status.await().tablets() == 3 && !connection.isClosed(), "the connection stays");
        }
    }

    private static void closing() throws Exception {
        BlockingQueue<byte[]> heard = new LinkedBlockingQueue<>();
        try (StandIn server = new StandIn(stream -> {
            stream.answer(OK);
            stream.answer(RIGHTS);
            stream.answer(OPENED);
            stream.answer(cell("a"), MORE);
            stream.hear();
            heard.add(stream.hear());
            stream.hearOut();
        }); AccumuloClient client = server.client()) {
            Scanner scanner = client.createScanner("t", Authorizations.EMPTY);
            scanner.setBatchSize(1);
            demand(scanner.iterator().hasNext(), "a cell");
            Thread.currentThread().interrupt();
            scanner.close();
            demand(Thread.interrupted(), "the interrupt is forgotten");
            byte[] close = heard.poll(20, TimeUnit.SECONDS);
            demand(close != null && close[0] == 0x0e, "no session is closed");
        }
    }

    /** Closes a client while another thread asks it, and demands that both end soon. */
    private static void closed(Act act, CountDownLatch asked) throws Exception {
        try (StandIn server = new StandIn(act)) {
            AccumuloClient client = server.client();
            FutureTask<Exception> asking = new FutureTask<>(() -> {
                try {
                    client.tableOperations().flush("t");
                    return null;
                } catch (Exception fault) {
                    return fault;
                }
            });
            started(asking);
            asked.await();
            long begun = System.nanoTime();
            client.close();
            Exception fault = asking.get(20, TimeUnit.SECONDS);
            demand(fault != null, "nothing is thrown");
            demand(System.nanoTime() - begun < 15_000_000_000L, "it took longer");
        }
    }

    private static void connecting() throws Exception {
        CountDownLatch asked = new CountDownLatch(1);
        closed(stream -> {
            stream.hear();
            asked.countDown();
            stream.hearOut();
        }, asked);
    }

    private static void awaiting() throws Exception {
        CountDownLatch asked = new CountDownLatch(1);
        closed(stream -> {
            stream.answer(OK);
            stream.hear();
            asked.countDown();
            stream.hearOut();
        }, asked);
    }

    private static void refusing() throws Exception {
        try (StandIn server = new StandIn(stream -> {
            stream.tell(NO_MEMORY);
            stream.end(false);
            stream.hearOut();
        })) {
            for (int turn = 0; turn < TURNS; turn++) {
                try {
                    server.connection().close();
                    demand(false, "it isn't refused");
                } catch (ConnectionClosedException refused) {
                    demand(refused.getMessage().contains("NoMemory"), refused.getMessage());
                }
            }
        }
    }
}
