/** What is asked of tables and users. */
package org.tabd.accumulo.core.client.admin;
