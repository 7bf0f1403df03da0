package org.tabd.accumulo.core.client.security.tokens;

/** What proves who somebody is. It is ignored: a server takes whoever may connect for who they say they are. */
public interface AuthenticationToken {}
