package org.tabd.protocol;

import java.util.List;

/** Bytes as a shell of tabd spells them. */
final class Words {
    private Words() {}

    /** A word of bytes: printable ones as themselves, a backslash doubled, others by two digits; or that there are none. */
    static String of(byte[] bytes) {
        if (bytes == null) {
            return "null";
        }
        StringBuilder word = new StringBuilder(bytes.length == 0 ? "\\e" : "");
        for (byte one : bytes) {
            if (one == '\\') {
                word.append("\\\\");
            } else if (one >= '!' && one <= '~') {
                word.append((char) one);
            } else {
                word.append(String.format("\\x%02x", one));
            }
        }
        return word.toString();
    }

    static List<String> of(List<byte[]> all) {
        return all.stream().map(Words::of).toList();
    }
}
