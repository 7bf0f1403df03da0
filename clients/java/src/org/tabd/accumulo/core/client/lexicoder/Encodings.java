package org.tabd.accumulo.core.client.lexicoder;

import java.io.ByteArrayOutputStream;
import java.util.ArrayList;
import java.util.Arrays;
import java.util.List;

/** What lexicoders share: whole numbers without their leading bytes, and bytes that stand one behind the other. */
final class Encodings {
    private Encodings() {}

    /**
     * The bytes of a number behind its leading zeros, or behind its leading 0xff where it is below 0. Before them stands their count, or
     * twice the width less that.
     */
    static byte[] number(long number, int width) {
        int count = width;
        while (count > 0 && (byte) (number >>> 8 * (count - 1)) == (byte) (number < 0 ? -1 : 0)) {
            count--;
        }
        byte[] bytes = new byte[count + 1];
        bytes[0] = (byte) (number < 0 ? 2 * width - count : count);
        for (int index = 1; index <= count; index++) {
            bytes[index] = (byte) (number >>> 8 * (count - index));
        }
        return bytes;
    }

    static long number(byte[] bytes, int width) {
        int first = bytes.length == 0 ? -1 : bytes[0];
        if (first < 0 || first > 2 * width || bytes.length - 1 != (first > width ? 2 * width - first : first)) {
            throw new IllegalArgumentException("Unexpected length " + (first & 0xff));
        }
        long number = first > width ? -1 : 0;
        for (int index = 1; index < bytes.length; index++) {
            number = number << 8 | bytes[index] & 0xff;
        }
        return number;
    }

    /** The bytes without zeros: 0 and 1 become two bytes, of which the first is 1. */
    static byte[] escape(byte[] bytes) {
        ByteArrayOutputStream escaped = new ByteArrayOutputStream(bytes.length);
        for (byte one : bytes) {
            if (one == 0 || one == 1) {
                escaped.write(1);
            }
            escaped.write(one == 0 || one == 1 ? one + 1 : one);
        }
        return escaped.toByteArray();
    }

    static byte[] unescape(byte[] bytes) {
        ByteArrayOutputStream plain = new ByteArrayOutputStream(bytes.length);
        for (int index = 0; index < bytes.length; index++) {
            boolean isEscape = bytes[index] == 1;
            if (isEscape && ++index == bytes.length) {
                throw new IllegalArgumentException("an escape is cut");
            }
            plain.write(isEscape ? bytes[index] - 1 : bytes[index]);
        }
        return plain.toByteArray();
    }

    /** Escaped parts with a zero between them. */
    static byte[] join(List<byte[]> parts) {
        ByteArrayOutputStream joined = new ByteArrayOutputStream();
        for (int index = 0; index < parts.size(); index++) {
            if (index > 0) {
                joined.write(0);
            }
            joined.writeBytes(escape(parts.get(index)));
        }
        return joined.toByteArray();
    }

    static List<byte[]> split(byte[] bytes) {
        List<byte[]> parts = new ArrayList<>();
        int from = 0;
        for (int at = 0; at <= bytes.length; at++) {
            if (at == bytes.length || bytes[at] == 0) {
                parts.add(unescape(Arrays.copyOfRange(bytes, from, at)));
                from = at + 1;
            }
        }
        return parts;
    }
}
