/** Where a program begins: {@link org.tabd.accumulo.Tabd} makes a client, and all else has the names that it has in Accumulo. */
package org.tabd.accumulo;
