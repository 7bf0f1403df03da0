package org.tabd.protocol;

import java.io.Serial;

/** The server refused a request, which changed nothing but its clock. */
public final class RefusedException extends Exception {
    @Serial
    private static final long serialVersionUID = 1L;

    /** Why. */
    private final transient Refusal refusal;

    /**
     * A refusal as an exception.
     *
     * @param refusal why
     */
    public RefusedException(Refusal refusal) {
        super(refusal.toString());
        this.refusal = refusal;
    }

    /**
     * Why the request was refused.
     *
     * @return the refusal
     */
    public Refusal refusal() {
        return refusal;
    }
}
