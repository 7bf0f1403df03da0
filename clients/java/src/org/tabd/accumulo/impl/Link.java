package org.tabd.accumulo.impl;

import java.io.IOException;
import java.time.Duration;
import org.tabd.protocol.Address;
import org.tabd.protocol.Connection;
import org.tabd.protocol.Pending;
import org.tabd.protocol.RefusedException;
import org.tabd.protocol.Request;

/** A user's connection that is made when it is first needed, and anew once it has ended. */
final class Link implements AutoCloseable {
    private final Address address;
    private final String user;
    private final Duration patience;
    private volatile Connection connection;
    private volatile boolean closed;

    Link(Address address, String user, Duration patience) {
        this.address = address;
        this.user = user;
        this.patience = patience;
    }

    /** Another one to the same server, which waits so long. */
    Link another(Duration otherPatience) {
        return new Link(address, user, otherPatience);
    }

    String user() {
        return user;
    }

    Duration patience() {
        return patience;
    }

    Connection connection() throws IOException {
        Connection now = begun();
        now.greeted();
        return now;
    }

    private synchronized Connection begun() throws IOException {
        Connection now = connection;
        if (!closed && (now == null || now.isClosed())) {
            now = Connection.begin(address, user, patience);
            connection = now;
        }
        if (closed) {
            close();
            throw new IllegalStateException("the client is closed");
        }
        return now;
    }

    <T> Pending<T> send(Request<T> request) throws IOException {
        return connection().send(request);
    }

    <T> T ask(Request<T> request) throws IOException, RefusedException {
        return send(request).await();
    }

    /** Ends the connection, also one that is just being made: no thread waits for an answer any more. */
    @Override
    public void close() {
        closed = true;
        Connection now = connection;
        if (now != null) {
            now.close();
        }
    }
}
