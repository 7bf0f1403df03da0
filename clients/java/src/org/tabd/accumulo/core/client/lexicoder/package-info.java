/** Encoders whose bytes have the order of what they encode; the bytes are Accumulo's. */
package org.tabd.accumulo.core.client.lexicoder;
