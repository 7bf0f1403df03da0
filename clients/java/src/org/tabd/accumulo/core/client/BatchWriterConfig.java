package org.tabd.accumulo.core.client;

import java.util.concurrent.TimeUnit;
import org.tabd.accumulo.impl.Notes;

/** How a {@link BatchWriter} queues. */
public class BatchWriterConfig {
    private static final long MAX_MEMORY = 50L * 1024 * 1024;
    private static final long MAX_LATENCY = 120_000;
    private static final int MAX_WRITE_THREADS = 3;

    private long maxMemory = MAX_MEMORY;
    private long maxLatency = MAX_LATENCY;
    private long timeout = Long.MAX_VALUE;
    private int maxWriteThreads = MAX_WRITE_THREADS;
    private Durability durability = Durability.DEFAULT;

    /** 50 MiB, two minutes, and the client's patience. */
    public BatchWriterConfig() {}

    /**
     * How many bytes may be queued. A writer sends what it was given well before, and waits where the server can't follow.
     *
     * @param maxMemory the count
     * @return this
     */
    public BatchWriterConfig setMaxMemory(long maxMemory) {
        if (maxMemory < 0) {
            throw new IllegalArgumentException("Max memory must be non-negative.");
        }
        this.maxMemory = maxMemory;
        return this;
    }

    /**
     * How long a mutation may be queued before it is sent.
     *
     * @param maxLatency how long; 0 is no bound
     * @param timeUnit of what
     * @return this
     */
    public BatchWriterConfig setMaxLatency(long maxLatency, TimeUnit timeUnit) {
        this.maxLatency = milliseconds(maxLatency, timeUnit);
        return this;
    }

    /**
     * How long the server may let the writer wait.
     *
     * @param timeout how long; 0 is no bound
     * @param timeUnit of what
     * @return this
     */
    public BatchWriterConfig setTimeout(long timeout, TimeUnit timeUnit) {
        this.timeout = milliseconds(timeout, timeUnit);
        return this;
    }

    private static long milliseconds(long count, TimeUnit unit) {
        if (count < 0) {
            throw new IllegalArgumentException("Negative time not allowed " + count);
        }
        return count == 0 ? Long.MAX_VALUE : Math.max(1, unit.toMillis(count));
    }

    /**
     * How many threads send. A writer has one connection, on which requests don't wait for one another, whatever is said here.
     *
     * @param maxWriteThreads the count
     * @return this
     */
    public BatchWriterConfig setMaxWriteThreads(int maxWriteThreads) {
        if (maxWriteThreads <= 0) {
            throw new IllegalArgumentException("Max threads must be positive " + maxWriteThreads);
        }
        this.maxWriteThreads = maxWriteThreads;
        return this;
    }

    /**
     * When a write is safe, which is ignored: the server decides that for all writes. Another one than the default is told of once.
     *
     * @param durability when
     * @return this
     */
    public BatchWriterConfig setDurability(Durability durability) {
        if (durability != Durability.DEFAULT) {
            Notes.DURABILITY.tell();
        }
        this.durability = durability;
        return this;
    }

    /**
     * How many bytes may be queued.
     *
     * @return the count
     */
    public long getMaxMemory() {
        return maxMemory;
    }

    /**
     * How long a mutation may be queued.
     *
     * @param timeUnit of what
     * @return how long
     */
    public long getMaxLatency(TimeUnit timeUnit) {
        return timeUnit.convert(maxLatency, TimeUnit.MILLISECONDS);
    }

    /**
     * How long the server may let the writer wait.
     *
     * @param timeUnit of what
     * @return how long
     */
    public long getTimeout(TimeUnit timeUnit) {
        return timeUnit.convert(timeout, TimeUnit.MILLISECONDS);
    }

    /**
     * How many threads were said to send.
     *
     * @return the count
     */
    public int getMaxWriteThreads() {
        return maxWriteThreads;
    }

    /**
     * When a write was said to be safe.
     *
     * @return what was said
     */
    public Durability getDurability() {
        return durability;
    }
}
