/** Keys, values, ranges, and mutations. */
package org.tabd.accumulo.core.data;
