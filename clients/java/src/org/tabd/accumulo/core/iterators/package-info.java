/** What all filters have. */
package org.tabd.accumulo.core.iterators;
