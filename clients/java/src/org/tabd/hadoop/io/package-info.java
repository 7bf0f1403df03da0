/** The one class of Hadoop's that programs for Accumulo name. */
package org.tabd.hadoop.io;
