/**
 * The protocol of {@code tabd serve}: requests, their replies, and a connection that carries them, as docs/PROTOCOL.md says.
 *
 * <p>Programs use the classes of {@code org.tabd.accumulo}; this package is for what these don't have, such as the horizon of a table.
 */
package org.tabd.protocol;
