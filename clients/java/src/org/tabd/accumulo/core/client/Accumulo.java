package org.tabd.accumulo.core.client;

import java.io.IOException;
import java.io.Reader;
import java.nio.file.Files;
import java.nio.file.Path;
import java.util.Properties;
import org.tabd.accumulo.Tabd;
import org.tabd.accumulo.core.client.security.tokens.AuthenticationToken;
import org.tabd.accumulo.impl.Notes;
import org.tabd.protocol.Address;
import org.tabd.protocol.Connection;

/** Makes clients as programs for Accumulo do. {@link Tabd} does it by fewer words. */
public final class Accumulo {
    private Accumulo() {}

    /** {@return what makes a client} */
    public static Builder newClient() {
        return new Builder();
    }

    /** Is told where the server is and who asks, and makes a client. */
    public static final class Builder {
        private String place;
        private String user;

        private Builder() {}

        /**
         * Takes {@code instance.zookeepers} for where the server is, {@code auth.principal} for who asks, and no other property.
         *
         * @param properties properties of an Accumulo client
         * @return this
         */
        public Builder from(Properties properties) {
            return to(properties.getProperty("instance.name"), properties.getProperty("instance.zookeepers"))
                    .as(properties.getProperty("auth.principal"), properties.getProperty("auth.token"));
        }

        /**
         * Takes what a file says, as {@link #from(Properties)} does.
         *
         * @param file its path
         * @return this
         */
        public Builder from(Path file) {
            Properties properties = new Properties();
            try (Reader reader = Files.newBufferedReader(file)) {
                properties.load(reader);
            } catch (IOException fault) {
                throw new IllegalArgumentException("Failed to load properties from " + file, fault);
            }
            return from(properties);
        }

        /**
         * Takes what a file says, as {@link #from(Properties)} does.
         *
         * @param file its path
         * @return this
         */
        public Builder from(String file) {
            return from(Path.of(file));
        }

        /**
         * Says where the server is.
         *
         * @param instance ignored: a server is one
         * @param server its {@code HOST:PORT}, or the path of its socket file, where Accumulo has those of its ZooKeepers
         * @return this
         */
        public Builder to(CharSequence instance, CharSequence server) {
            place = server == null ? null : server.toString();
            return this;
        }

        /**
         * Says who asks.
         *
         * @param user who
         * @param password ignored: a server asks for none
         * @return this
         */
        public Builder as(CharSequence user, CharSequence password) {
            return as(user, password != null && password.length() > 0);
        }

        /**
         * Says who asks.
         *
         * @param user who
         * @param token ignored: a server asks for none
         * @return this
         */
        public Builder as(CharSequence user, AuthenticationToken token) {
            return as(user, token != null);
        }

        private Builder as(CharSequence who, boolean hasPassword) {
            user = who == null ? null : who.toString();
            if (hasPassword) {
                Notes.PASSWORDS.tell();
            }
            return this;
        }

        /**
         * Makes the client, which connects when it is first asked something.
         *
         * @return the client
         * @throws IllegalArgumentException if it wasn't said where the server is or who asks
         */
        public AccumuloClient build() {
            return Tabd.client(Address.of(place), user, Connection.PATIENCE);
        }
    }
}
