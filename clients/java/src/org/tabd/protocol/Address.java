package org.tabd.protocol;

import java.io.IOException;
import java.net.InetSocketAddress;
import java.net.StandardProtocolFamily;
import java.net.StandardSocketOptions;
import java.net.UnixDomainSocketAddress;
import java.nio.channels.SocketChannel;
import java.nio.file.Path;
import java.time.Duration;

/** Where a server is. */
public sealed interface Address {
    /**
     * Connects to the server there.
     *
     * @param patience how long that may take; zero is no bound
     * @return the connected channel
     * @throws IOException if nobody listens there
     */
    SocketChannel connect(Duration patience) throws IOException;

    /**
     * An address in one word.
     *
     * @param place {@code HOST:PORT}, or the path of a socket file, which has a slash
     * @return the address
     * @throws IllegalArgumentException if it is neither
     */
    static Address of(String place) {
        if (place != null && place.indexOf('/') >= 0) {
            return new SocketFile(Path.of(place));
        }
        if (place == null || !place.matches("[^,\\s]+:[0-9]{1,5}")) {
            throw new IllegalArgumentException("not a server, which is HOST:PORT or the path of a socket file: " + place);
        }
        int colon = place.lastIndexOf(':');
        return new Port(place.substring(0, colon), Integer.parseInt(place.substring(colon + 1)));
    }

    /**
     * A port of a host.
     *
     * @param host the name or number of the host
     * @param port the port, 1 to 65535
     */
    record Port(String host, int port) implements Address {
        @Override
        public SocketChannel connect(Duration patience) throws IOException {
            SocketChannel channel = SocketChannel.open();
            try {
                channel.socket().connect(new InetSocketAddress(host, port), Math.toIntExact(patience.toMillis()));
                return channel.setOption(StandardSocketOptions.TCP_NODELAY, true);
            } catch (IOException | RuntimeException fault) {
                channel.close();
                throw fault;
            }
        }
    }

    /**
     * A socket file.
     *
     * @param path its path
     */
    record SocketFile(Path path) implements Address {
        @Override
        public SocketChannel connect(Duration patience) throws IOException {
            SocketChannel channel = SocketChannel.open(StandardProtocolFamily.UNIX);
            try {
                channel.connect(UnixDomainSocketAddress.of(path));
                return channel;
            } catch (IOException | RuntimeException fault) {
                channel.close();
                throw fault;
            }
        }
    }
}
