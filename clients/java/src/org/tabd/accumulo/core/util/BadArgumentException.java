package org.tabd.accumulo.core.util;

import java.io.Serial;
import java.util.regex.PatternSyntaxException;

/** An argument, as the text of a label, is malformed. */
public final class BadArgumentException extends PatternSyntaxException {
    @Serial
    private static final long serialVersionUID = 1L;

    /**
     * Says what is wrong with which argument.
     *
     * @param desc what is wrong
     * @param badarg the argument
     * @param index where in it
     */
    public BadArgumentException(String desc, String badarg, int index) {
        super(desc, badarg, index);
    }
}
