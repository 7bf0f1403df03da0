package org.tabd.protocol;

import java.io.EOFException;
import java.io.IOException;
import java.nio.ByteBuffer;
import java.nio.channels.ClosedSelectorException;
import java.nio.channels.SelectionKey;
import java.nio.channels.Selector;
import java.nio.channels.SocketChannel;
import java.time.Duration;
import java.util.ArrayDeque;
import java.util.List;
import java.util.Queue;

/**
 * A user's connection to a server. Many threads may use it at once: requests are sent one behind the other, and a thread of its own reads
 * the answers in the same order. What breaks into that ends the connection, once the answers that have come are read.
 */
public final class Connection implements AutoCloseable {
    /** How long a client waits for its server unless told otherwise. */
    public static final Duration PATIENCE = Duration.ofSeconds(60);

    private static final int BUFFER = 1 << 18;
    static final long NEVER = Long.MAX_VALUE / 2;

    private final SocketChannel channel;
    private final Selector readable;
    private final Selector writable;
    private final long patience;
    private final Object sending = new Object();
    /** What was sent and isn't answered; it guards {@link #failure} too. */
    private final Queue<Pending<?>> waiting = new ArrayDeque<>();

    private IOException failure;
    private volatile Pending<Void> greeting;
    private volatile long heard = System.nanoTime();

    private Connection(SocketChannel channel, Duration patience) throws IOException {
        this.channel = channel;
        this.patience = patience.isZero() ? NEVER : patience.toNanos();
        channel.configureBlocking(false);
        readable = Selector.open();
        writable = Selector.open();
        channel.register(readable, SelectionKey.OP_READ);
        channel.register(writable, SelectionKey.OP_WRITE);
    }

    /**
     * Connects to a server, and says who asks. That is taken as given: who is no user is told so by each request.
     *
     * @param address where the server is
     * @param user who asks
     * @param patience how long the server may let it wait; zero is no bound
     * @return the connection
     * @throws IOException if no server answers there
     * @throws IllegalArgumentException if the user's name is none
     */
    public static Connection open(Address address, String user, Duration patience) throws IOException {
        Connection connection = begin(address, user, patience);
        try {
            connection.greeted();
            return connection;
        } catch (IOException fault) {
            connection.close();
            throw fault;
        }
    }

    /**
     * Connects to a server, says who asks, and doesn't wait for the answer to that.
     *
     * @param address where the server is
     * @param user who asks
     * @param patience how long the server may let it wait; zero is no bound
     * @return the connection
     * @throws IOException if nobody listens there
     * @throws IllegalArgumentException if the user's name is none
     */
    public static Connection begin(Address address, String user, Duration patience) throws IOException {
        Request<Void> hello = Request.hello(user);
        SocketChannel channel = address.connect(patience);
        try {
            Connection connection = new Connection(channel, patience);
            // a server may refuse before it is asked, so the request is there before its answer is read
            connection.greeting = connection.send(hello);
            Thread reader = new Thread(connection::readAll, "tabd-reader");
            reader.setDaemon(true);
            reader.start();
            return connection;
        } catch (IOException | RuntimeException | Error fault) {
            channel.close();
            throw fault;
        }
    }

    /**
     * Waits until the server has taken who asks.
     *
     * @throws IOException if it doesn't, or the connection fails; see {@link Pending#await}
     */
    public void greeted() throws IOException {
        try {
            greeting.await();
        } catch (RefusedException refused) {
            fail(new ConnectionClosedException("the server refuses the connection"));
            throw new ConnectionClosedException("the server refuses the connection: " + refused.refusal());
        }
    }

    /**
     * Asks, and waits for the answer.
     *
     * @param <T> what is told
     * @param request the request
     * @return what is told
     * @throws RefusedException if the server refuses it
     * @throws IOException if the connection fails; see {@link Pending#await}
     */
    public <T> T ask(Request<T> request) throws IOException, RefusedException {
        return send(request).await();
    }

    /**
     * Sends a request, and waits for its answer no longer than it takes to send it. Where it can't be sent whole, what gives the answer says
     * why, unless the server has answered it all the same. An interrupt doesn't break into it.
     *
     * @param <T> what is told
     * @param request the request
     * @return what gives the answer
     * @throws IOException if the connection has ended before
     */
    public <T> Pending<T> send(Request<T> request) throws IOException {
        Pending<T> pending = new Pending<>(this, request.form());
        synchronized (sending) {
            synchronized (waiting) {
                if (failure != null) {
                    throw again(failure);
                }
                waiting.add(pending);
            }
            write(ByteBuffer.wrap(request.frame().array(), 0, request.frame().length()));
        }
        return pending;
    }

    /**
     * Whether requests can be sent no more.
     *
     * @return true once the connection has ended
     */
    public boolean isClosed() {
        synchronized (waiting) {
            return failure != null;
        }
    }

    /** Ends the connection, and its sessions with it. What isn't answered fails. */
    @Override
    public void close() {
        fail(new ConnectionClosedException("the connection is closed"));
    }

    // ---- Sending.

    private void write(ByteBuffer bytes) {
        boolean interrupted = false;
        try {
            long until = System.nanoTime() + patience;
            // behind the last byte nothing is asked of the selector: the answer, and the connection's end, may be there before this returns
            while (bytes.hasRemaining()) {
                if (writePart(bytes) > 0) {
                    until = System.nanoTime() + patience;
                } else if (System.nanoTime() - until < 0) {
                    interrupted |= Thread.interrupted();
                    writable.select(Math.max(1, (until - System.nanoTime()) / 1_000_000));
                    writable.selectedKeys().clear();
                } else {
                    throw late();
                }
            }
        } catch (IOException | ClosedSelectorException fault) {
            breakOff(closedBy(fault));
        } finally {
            if (interrupted) {
                Thread.currentThread().interrupt();
            }
        }
    }

    /** Writes what the channel takes of the next bytes; of many of them a part, since those that it doesn't take are copied in vain. */
    private int writePart(ByteBuffer bytes) throws IOException {
        int end = bytes.limit();
        try {
            return channel.write(bytes.limit(Math.min(end, bytes.position() + BUFFER)));
        } finally {
            bytes.limit(end);
        }
    }

    // ---- Receiving, in a thread of its own.

    private void readAll() {
        Replies replies = new Replies(this::receive, BUFFER);
        try {
            while (replies.await()) {
                first().read(replies);
                synchronized (waiting) {
                    waiting.poll();
                }
            }
            fail(new ConnectionClosedException("the server ended the connection"));
        } catch (IOException | RuntimeException | Error fault) {
            fail(closedBy(fault));
        }
    }

    private Pending<?> first() throws ProtocolException {
        synchronized (waiting) {
            if (waiting.isEmpty()) {
                throw new ProtocolException("the server says what wasn't asked for");
            }
            return waiting.peek();
        }
    }

    private boolean receive(ByteBuffer buffer) throws IOException {
        while (true) {
            // what came before the connection broke is there by then, and is read though that is known by now
            boolean isLast = isClosed();
            int count = channel.read(buffer);
            if (count > 0) {
                heard = System.nanoTime();
            }
            if (count != 0 || isLast) {
                return count > 0;
            }
            readable.select();
            readable.selectedKeys().clear();
        }
    }

    // ---- Time.

    /** How long may still be waited for an answer, in nanoseconds; where that is over, how long it may take to read what has come. */
    long patience(long sent) {
        return Math.max(1_000_000, patience - (System.nanoTime() - latest(sent)));
    }

    /** Ends the connection if nothing came for too long since a request was sent. */
    void giveUpIfLate(long sent) {
        if (System.nanoTime() - latest(sent) >= patience) {
            breakOff(late());
        }
    }

    private long latest(long sent) {
        long since = heard;
        return since - sent > 0 ? since : sent;
    }

    private ServerTimeoutException late() {
        String why = greeting == null || greeting.isDone() ? "" : "; all its workers may be busy (--workers)";
        return new ServerTimeoutException("the server took longer than " + Duration.ofNanos(patience) + why);
    }

    // ---- Failing.

    /**
     * Lets the connection end for this reason, unless it has one: nothing is sent any more, and the reader ends it once it has read what has
     * come. What was answered stays answered.
     */
    private void breakOff(IOException why) {
        synchronized (waiting) {
            failure = failure == null ? why : failure;
        }
        readable.wakeup();
    }

    /** Ends the connection for this reason, unless it has ended before, and gives the reason for which it did. */
    private IOException fail(IOException why) {
        List<Pending<?>> left;
        IOException first;
        synchronized (waiting) {
            first = failure == null ? why : failure;
            failure = first;
            left = List.copyOf(waiting);
            waiting.clear();
        }
        for (AutoCloseable end : List.<AutoCloseable>of(channel, readable, writable)) {
            try {
                end.close();
            } catch (Exception ignored) {
                // it is given up whatever comes of that
            }
        }
        left.forEach(pending -> pending.fail(first));
        return first;
    }

    private static IOException closedBy(Throwable fault) {
        if (fault instanceof ProtocolException || fault instanceof ConnectionClosedException) {
            return (IOException) fault;
        }
        if (fault instanceof EOFException) {
            return new ConnectionClosedException(fault.getMessage());
        }
        return new ConnectionClosedException("the connection failed: " + fault, fault);
    }

    /** A copy of a fault for another thread. */
    static IOException again(Throwable why) {
        if (why instanceof ProtocolException) {
            return new ProtocolException(why.getMessage());
        }
        if (why instanceof ServerTimeoutException) {
            return new ServerTimeoutException(why.getMessage());
        }
        return new ConnectionClosedException(why.getMessage(), why);
    }
}
