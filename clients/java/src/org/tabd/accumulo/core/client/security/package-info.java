/** The codes of what isn't allowed. */
package org.tabd.accumulo.core.client.security;
