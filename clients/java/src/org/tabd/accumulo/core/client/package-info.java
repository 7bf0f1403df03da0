/** The client: writers, scanners, and what can go wrong. */
package org.tabd.accumulo.core.client;
