/** A client of tabd in the shape of Apache Accumulo's. */
module org.tabd.accumulo {
    exports org.tabd.accumulo;
    exports org.tabd.accumulo.core.client;
    exports org.tabd.accumulo.core.client.admin;
    exports org.tabd.accumulo.core.client.lexicoder;
    exports org.tabd.accumulo.core.client.security;
    exports org.tabd.accumulo.core.client.security.tokens;
    exports org.tabd.accumulo.core.data;
    exports org.tabd.accumulo.core.iterators;
    exports org.tabd.accumulo.core.iterators.user;
    exports org.tabd.accumulo.core.security;
    exports org.tabd.accumulo.core.util;
    exports org.tabd.hadoop.io;
    exports org.tabd.protocol;
}
