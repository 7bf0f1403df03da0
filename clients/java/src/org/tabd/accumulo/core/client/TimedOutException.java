package org.tabd.accumulo.core.client;

import java.io.Serial;

/** The server took longer than it was to be waited for. */
public class TimedOutException extends RuntimeException {
    @Serial
    private static final long serialVersionUID = 1L;

    /**
     * Says what took too long.
     *
     * @param why what
     * @param cause the connection's fault
     */
    public TimedOutException(String why, Throwable cause) {
        super(why, cause);
    }
}
