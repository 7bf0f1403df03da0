package org.tabd.accumulo.core.data;

import java.nio.charset.StandardCharsets;
import java.util.Arrays;
import org.tabd.hadoop.io.Text;

/** What keys, values and mutations share: the bytes of texts, and how bytes are shown. */
final class Bytes {
    static final byte[] NONE = {};
    private static final int MOST_SHOWN = 64;

    private Bytes() {}

    static byte[] of(CharSequence text) {
        return text.toString().getBytes(StandardCharsets.UTF_8);
    }

    static byte[] of(Text text) {
        return text.copyBytes();
    }

    /** The bytes and a zero: what comes next behind them. */
    static byte[] following(byte[] bytes) {
        return Arrays.copyOf(bytes, bytes.length + 1);
    }

    /** Shows bytes: those that aren't printable as a percent sign, two digits and a semicolon, and no more than 64 of them. */
    static StringBuilder show(StringBuilder to, byte[] bytes) {
        for (int index = 0; index < Math.min(bytes.length, MOST_SHOWN); index++) {
            int one = bytes[index] & 0xff;
            if (one >= ' ' && one <= '~') {
                to.append((char) one);
            } else {
                to.append(String.format("%%%02x;", one));
            }
        }
        return bytes.length > MOST_SHOWN ? to.append("... TRUNCATED") : to;
    }
}
