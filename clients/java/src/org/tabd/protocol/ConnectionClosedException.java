package org.tabd.protocol;

import java.io.IOException;

/** The connection ended, failed or was closed. Whether a request without an answer took effect isn't known. */
public class ConnectionClosedException extends IOException {
    private static final long serialVersionUID = 1L;

    /**
     * Says what happened.
     *
     * @param message what happened
     */
    public ConnectionClosedException(String message) {
        super(message);
    }

    /**
     * Says what happened, and why.
     *
     * @param message what happened
     * @param cause why
     */
    public ConnectionClosedException(String message, Throwable cause) {
        super(message, cause);
    }
}
