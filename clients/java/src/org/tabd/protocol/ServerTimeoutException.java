package org.tabd.protocol;

/** The server took longer than the client waits. The connection is closed. */
public final class ServerTimeoutException extends ConnectionClosedException {
    private static final long serialVersionUID = 1L;

    /**
     * Says how long the client waited.
     *
     * @param message how long
     */
    public ServerTimeoutException(String message) {
        super(message);
    }
}
