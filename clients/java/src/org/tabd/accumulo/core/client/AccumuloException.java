package org.tabd.accumulo.core.client;

import java.io.Serial;

/** The server refused a request, or can't be asked: the cause says which. */
public class AccumuloException extends Exception {
    @Serial
    private static final long serialVersionUID = 1L;

    /**
     * Says what happened.
     *
     * @param why what happened
     */
    public AccumuloException(String why) {
        super(why);
    }

    /**
     * Says why it happened.
     *
     * @param cause why
     */
    public AccumuloException(Throwable cause) {
        super(cause);
    }

    /**
     * Says what happened, and why.
     *
     * @param why what happened
     * @param cause why
     */
    public AccumuloException(String why, Throwable cause) {
        super(why, cause);
    }
}
