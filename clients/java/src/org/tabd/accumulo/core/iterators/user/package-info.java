/** The filters that scanners have. */
package org.tabd.accumulo.core.iterators.user;
