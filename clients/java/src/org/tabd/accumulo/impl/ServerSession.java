package org.tabd.accumulo.impl;

import java.io.IOException;
import java.lang.ref.Cleaner;
import java.time.Duration;
import java.util.List;
import java.util.concurrent.atomic.AtomicBoolean;
import java.util.function.LongFunction;
import org.tabd.protocol.Column;
import org.tabd.protocol.Connection;
import org.tabd.protocol.Pending;
import org.tabd.protocol.RefusedException;
import org.tabd.protocol.Request;
import org.tabd.protocol.RowRange;

/** A session of a scan on a server. It is given up when it is closed, or once nobody can ask it any more. */
final class ServerSession {
    private static final Cleaner CLEANER = Cleaner.create();

    /** What is left to be done when a session is given up. It knows nothing of who used it. */
    private record End(Connection connection, Pending<Long> opening, AtomicBoolean done) implements Runnable {
        /** Does it now where the session's number is known, and else once it is: nobody waits for that. */
        @Override
        public void run() {
            if (done.getAndSet(true) || connection.isClosed()) {
                return;
            }
            if (opening.isDone()) {
                close();
            } else {
                Background.run(this::close);
            }
        }

        /** Does it in another thread, unless it is done. */
        void later() {
            if (!done.get()) {
                Background.run(this);
            }
        }

        private void close() {
            try {
                connection.send(Request.close(opening.await()));
            } catch (IOException | RefusedException gone) {
                // there is no session then
            }
        }
    }

    private final String user;
    private final Scan scan;
    private final Duration timeout;
    private final Connection connection;
    private final Pending<Long> opening;
    private final End end;
    private final Cleaner.Cleanable cleanable;

    /** Opens a session on what the table shows now; whether it is refused is told by the first request. */
    ServerSession(Link link, Scan scan, RowRange rows, Column column, Duration timeout) {
        this.user = link.user();
        this.scan = scan;
        this.timeout = timeout;
        try {
            connection = link.connection();
            List<Column> columns = scan.columns().isEmpty() && column != null ? List.of(column) : scan.columns();
            opening = connection.send(Request.open(scan.table(), rows, columns, scan.authorizations()));
        } catch (IOException fault) {
            throw Faults.ofScan(fault);
        }
        end = new End(connection, opening, new AtomicBoolean());
        cleanable = CLEANER.register(this, end::later);
    }

    /** Sends a request that is made for the session's number. */
    <T> Pending<T> send(LongFunction<Request<T>> request) {
        try {
            return connection.send(request.apply(await(opening)));
        } catch (IOException fault) {
            throw Faults.ofScan(fault);
        }
    }

    /** Waits for an answer. */
    <T> T await(Pending<T> pending) {
        try {
            return pending.await(timeout);
        } catch (RefusedException refused) {
            throw Faults.ofScan(user, scan.table(), refused);
        } catch (IOException fault) {
            throw Faults.ofScan(fault);
        }
    }

    void close() {
        end.run();
        cleanable.clean();
    }
}
