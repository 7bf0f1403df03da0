/** Passwords, which a server doesn't ask for. */
package org.tabd.accumulo.core.client.security.tokens;
