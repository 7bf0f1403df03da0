package org.tabd.accumulo.core.client.admin;

import java.util.SortedSet;

/** Stands for Accumulo's namespaces, which a server doesn't have. None is ever made. */
public interface NamespaceOperations {
    /**
     * Isn't there: a server has no namespaces; a dot in a table's name is a dot.
     *
     * @return never
     * @throws UnsupportedOperationException always
     */
    default SortedSet<String> list() {
        throw new UnsupportedOperationException("list: a server has no namespaces; a dot in a table's name is a dot");
    }

    /**
     * Isn't there: a server has no namespaces; a dot in a table's name is a dot.
     *
     * @param namespace isn't looked at
     * @return never
     * @throws UnsupportedOperationException always
     */
    default boolean exists(String namespace) {
        throw new UnsupportedOperationException("exists: a server has no namespaces; a dot in a table's name is a dot");
    }

    /**
     * Isn't there: a server has no namespaces; a dot in a table's name is a dot.
     *
     * @param namespace isn't looked at
     * @throws UnsupportedOperationException always
     */
    default void create(String namespace) {
        throw new UnsupportedOperationException("create: a server has no namespaces; a dot in a table's name is a dot");
    }

    /**
     * Isn't there: a server has no namespaces; a dot in a table's name is a dot.
     *
     * @param namespace isn't looked at
     * @throws UnsupportedOperationException always
     */
    default void delete(String namespace) {
        throw new UnsupportedOperationException("delete: a server has no namespaces; a dot in a table's name is a dot");
    }

    /**
     * Isn't there: a server has no namespaces; a dot in a table's name is a dot.
     *
     * @param namespace isn't looked at
     * @param property isn't looked at
     * @param value isn't looked at
     * @throws UnsupportedOperationException always
     */
    default void setProperty(String namespace, String property, String value) {
        throw new UnsupportedOperationException("setProperty: a server has no namespaces; a dot in a table's name is a dot");
    }
}
