package org.tabd.accumulo.impl;

import java.io.IOException;
import java.util.ArrayDeque;
import java.util.Deque;
import java.util.SortedMap;
import java.util.concurrent.Future;
import org.tabd.accumulo.core.client.MutationsRejectedException;
import org.tabd.accumulo.core.data.Mutation;
import org.tabd.protocol.Frame;
import org.tabd.protocol.Pending;
import org.tabd.protocol.Refusal;
import org.tabd.protocol.RefusedException;
import org.tabd.protocol.Request;

/**
 * The mutations of a writer on their way: gathered in frames, sent when there are enough, when the first has waited for long, or when
 * asked; and what came of them. All methods may be called by many threads.
 */
final class Writes implements AutoCloseable {
    /** So many bytes are sent at once. */
    private static final int CHUNK = 1 << 17;
    /** So many requests may wait for their answers. */
    private static final int WINDOW = 64;

    /** Writes that were sent together. */
    private record Sent(Pending<SortedMap<Integer, Refusal>> pending, int count) {}

    private final Link link;
    private final int chunk;
    private final long latency;
    private final Frame gathered;
    private final Deque<Sent> sent = new ArrayDeque<>();
    private final Rejections rejections;
    private int count;
    private Future<?> alarm;
    private boolean closed;

    Writes(Link link, long maxMemory, long latency) {
        this.link = link;
        this.latency = latency;
        chunk = (int) Math.max(1, Math.min(maxMemory / 2, CHUNK));
        gathered = new Frame(chunk + chunk / 2);
        rejections = new Rejections(link.user());
    }

    synchronized void add(byte[] table, Mutation mutation) throws MutationsRejectedException {
        demandOpen();
        if (mutation.size() == 0) {
            throw new IllegalArgumentException("Can not add empty mutations");
        }
        rejections.check();
        Request.putWrite(gathered, table, mutation.getRow(), mutation.toUpdates());
        count++;
        if (gathered.length() >= chunk) {
            send();
            settle(WINDOW);
        } else if (alarm == null && latency < Long.MAX_VALUE) {
            alarm = Background.later(this::send, latency);
        }
    }

    synchronized void flush() throws MutationsRejectedException {
        demandOpen();
        send();
        settle(0);
        rejections.check();
    }

    synchronized boolean isClosed() {
        return closed;
    }

    /** Does all that is left, and gives the connection up. */
    @Override
    public synchronized void close() throws MutationsRejectedException {
        if (closed) {
            return;
        }
        try {
            flush();
        } finally {
            closed = true;
            link.close();
        }
    }

    private void demandOpen() {
        if (closed) {
            throw new IllegalStateException("Closed");
        }
    }

    /** Sends what is gathered. */
    private synchronized void send() {
        if (alarm != null) {
            alarm.cancel(false);
            alarm = null;
        }
        if (count == 0 || closed) {
            return;
        }
        int now = count;
        try {
            sent.add(new Sent(link.send(Request.writes(gathered, now)), now));
        } catch (IOException fault) {
            rejections.fail(now, fault);
        } finally {
            gathered.cut(0);
            count = 0;
        }
    }

    /** Hears what came of all requests but so many of the last ones, and of those whose answers are here. */
    private void settle(int left) {
        while (!sent.isEmpty() && (sent.size() > left || sent.peek().pending().isDone())) {
            Sent first = sent.remove();
            try {
                first.pending().await().values().forEach(rejections::refuse);
            } catch (IOException | RefusedException fault) {
                rejections.fail(first.count(), fault);
            }
        }
    }
}
