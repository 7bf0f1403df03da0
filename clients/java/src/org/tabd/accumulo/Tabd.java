package org.tabd.accumulo;

import java.nio.file.Path;
import java.time.Duration;
import org.tabd.accumulo.core.client.AccumuloClient;
import org.tabd.accumulo.impl.ClientImpl;
import org.tabd.protocol.Address;
import org.tabd.protocol.Connection;

/** Makes clients of {@code tabd serve}. They connect when they are first asked something. */
public final class Tabd {
    private Tabd() {}

    /**
     * A client of a server on a port.
     *
     * @param host the host, 127.0.0.1 unless the port is forwarded
     * @param port the port
     * @param user who asks, which the server takes as given
     * @return the client
     */
    public static AccumuloClient client(String host, int port, String user) {
        return client(new Address.Port(host, port), user, Connection.PATIENCE);
    }

    /**
     * A client of a server at a socket file.
     *
     * @param socket the path of the file
     * @param user who asks
     * @return the client
     */
    public static AccumuloClient client(Path socket, String user) {
        return client(new Address.SocketFile(socket), user, Connection.PATIENCE);
    }

    /**
     * A client of a server.
     *
     * @param address where the server is
     * @param user who asks
     * @param patience how long the server may let it wait; zero is no bound
     * @return the client
     */
    public static AccumuloClient client(Address address, String user, Duration patience) {
        return new ClientImpl(address, user, patience);
    }
}
