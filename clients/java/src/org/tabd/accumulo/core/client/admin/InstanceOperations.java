package org.tabd.accumulo.core.client.admin;

import java.util.List;
import java.util.Map;

/** Stands for Accumulo's operations on a cluster, which a server isn't. None is ever made. */
public interface InstanceOperations {
    /**
     * Isn't there: a server has no properties; its options are those of tabd serve.
     *
     * @param property isn't looked at
     * @param value isn't looked at
     * @throws UnsupportedOperationException always
     */
    default void setProperty(String property, String value) {
        throw new UnsupportedOperationException("setProperty: a server has no properties; its options are those of tabd serve");
    }

    /**
     * Isn't there: a server has no properties; its options are those of tabd serve.
     *
     * @param property isn't looked at
     * @throws UnsupportedOperationException always
     */
    default void removeProperty(String property) {
        throw new UnsupportedOperationException("removeProperty: a server has no properties; its options are those of tabd serve");
    }

    /**
     * Isn't there: a server has no properties; its options are those of tabd serve.
     *
     * @return never
     * @throws UnsupportedOperationException always
     */
    default Map<String, String> getSystemConfiguration() {
        throw new UnsupportedOperationException("getSystemConfiguration: a server has no properties; its options are those of tabd serve");
    }

    /**
     * Isn't there: a server has no properties; its options are those of tabd serve.
     *
     * @return never
     * @throws UnsupportedOperationException always
     */
    default Map<String, String> getSiteConfiguration() {
        throw new UnsupportedOperationException("getSiteConfiguration: a server has no properties; its options are those of tabd serve");
    }

    /**
     * Isn't there: a server is one process, and has no other.
     *
     * @return never
     * @throws UnsupportedOperationException always
     */
    default List<String> getTabletServers() {
        throw new UnsupportedOperationException("getTabletServers: a server is one process, and has no other");
    }

    /**
     * Isn't there: a server is one process, and has no other.
     *
     * @param tserver isn't looked at
     * @throws UnsupportedOperationException always
     */
    default void ping(String tserver) {
        throw new UnsupportedOperationException("ping: a server is one process, and has no other");
    }

    /**
     * Isn't there: a server is one process, and has no other.
     *
     * @throws UnsupportedOperationException always
     */
    default void waitForBalance() {
        throw new UnsupportedOperationException("waitForBalance: a server is one process, and has no other");
    }
}
