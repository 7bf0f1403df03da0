/** How it is done; not for programs. */
package org.tabd.accumulo.impl;
