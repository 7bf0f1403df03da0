/** Labels, authorizations, and permissions. */
package org.tabd.accumulo.core.security;
