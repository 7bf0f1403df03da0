package org.tabd.protocol;

import java.io.IOException;

/** The server said what isn't of the protocol. The connection is closed. */
public final class ProtocolException extends IOException {
    private static final long serialVersionUID = 1L;

    /**
     * Says what was wrong.
     *
     * @param message what was wrong
     */
    public ProtocolException(String message) {
        super(message);
    }
}
