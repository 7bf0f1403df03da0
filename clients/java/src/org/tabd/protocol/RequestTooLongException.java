package org.tabd.protocol;

import java.io.Serial;

/** A request has over 8,388,608 bytes. It isn't sent. */
public final class RequestTooLongException extends IllegalArgumentException {
    @Serial
    private static final long serialVersionUID = 1L;

    /**
     * Says how long it is.
     *
     * @param length how many bytes it has
     */
    RequestTooLongException(int length) {
        super("a request of " + length + " bytes, and at most " + Frame.MAX_LENGTH + " can be sent");
    }
}
