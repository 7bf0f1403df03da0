package org.tabd.protocol;

import java.io.IOException;
import java.io.InterruptedIOException;
import java.time.Duration;
import java.util.concurrent.CompletableFuture;
import java.util.concurrent.ExecutionException;
import java.util.concurrent.TimeUnit;
import java.util.concurrent.TimeoutException;

/**
 * A request that was sent, and whose answer may not be here yet.
 *
 * @param <T> what is told of it
 */
public final class Pending<T> {
    private final Connection connection;
    private final Request.Form<T> form;
    private final CompletableFuture<T> answer = new CompletableFuture<>();
    private final long sent = System.nanoTime();

    Pending(Connection connection, Request.Form<T> form) {
        this.connection = connection;
        this.form = form;
    }

    /** Reads the answer. What breaks off in it is the connection's fault. */
    void read(Replies replies) throws IOException {
        try {
            answer.complete(form.read(replies));
        } catch (RefusedException refused) {
            answer.completeExceptionally(refused);
        }
    }

    void fail(IOException why) {
        answer.completeExceptionally(why);
    }

    /**
     * Whether the answer is here.
     *
     * @return whether {@link #await} returns at once
     */
    public boolean isDone() {
        return answer.isDone();
    }

    /**
     * Waits for the answer.
     *
     * @return what is told
     * @throws RefusedException if the request was refused
     * @throws IOException if the connection ended, the server said what isn't of the protocol, or nothing for longer than the client waits;
     *     or as an {@link InterruptedIOException} if the thread is interrupted, while the connection stays
     */
    public T await() throws IOException, RefusedException {
        return await(Duration.ZERO);
    }

    /**
     * Waits for the answer, but no longer than so long from when the request was sent. The connection stays then.
     *
     * @param most how long; zero is as long as the connection waits
     * @return what is told
     * @throws RefusedException if the request was refused
     * @throws IOException if the connection fails, as {@link #await()} says; as a {@link ServerTimeoutException} where it took too long
     */
    public T await(Duration most) throws IOException, RefusedException {
        long until = sent + (most.isZero() ? Connection.NEVER : most.toNanos());
        while (true) {
            try {
                return answer.get(Math.min(connection.patience(sent), until - System.nanoTime()), TimeUnit.NANOSECONDS);
            } catch (TimeoutException late) {
                if (System.nanoTime() - until >= 0) {
                    throw new ServerTimeoutException("the server took longer than " + most);
                }
                connection.giveUpIfLate(sent);
            } catch (InterruptedException interrupted) {
                Thread.currentThread().interrupt();
                throw new InterruptedIOException("interrupted while a reply was waited for");
            } catch (ExecutionException failed) {
                if (failed.getCause() instanceof RefusedException refused) {
                    throw new RefusedException(refused.refusal());
                }
                throw Connection.again(failed.getCause());
            }
        }
    }
}
