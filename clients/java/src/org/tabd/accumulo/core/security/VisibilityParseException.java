package org.tabd.accumulo.core.security;

import java.io.Serial;
import java.nio.charset.StandardCharsets;
import java.text.ParseException;

/** A label is malformed. */
public class VisibilityParseException extends ParseException {
    @Serial
    private static final long serialVersionUID = 1L;

    /** Which. */
    private final String visibility;

    /**
     * Says what is wrong with which label.
     *
     * @param reason what is wrong
     * @param visibility the label
     * @param errorOffset where in it
     */
    public VisibilityParseException(String reason, byte[] visibility, int errorOffset) {
        super(reason, errorOffset);
        this.visibility = new String(visibility, StandardCharsets.UTF_8);
    }

    @Override
    public String getMessage() {
        return super.getMessage() + " in string '" + visibility + "' at position " + super.getErrorOffset();
    }
}
