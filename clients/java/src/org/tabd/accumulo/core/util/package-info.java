/** What malformed labels are told by. */
package org.tabd.accumulo.core.util;
