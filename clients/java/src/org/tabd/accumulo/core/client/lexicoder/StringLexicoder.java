package org.tabd.accumulo.core.client.lexicoder;

import java.nio.charset.StandardCharsets;

/** Strings as UTF-8. */
public class StringLexicoder implements Lexicoder<String> {
    /** Strings as UTF-8. */
    public StringLexicoder() {}

    @Override
    public byte[] encode(String object) {
        return object.getBytes(StandardCharsets.UTF_8);
    }

    @Override
    public String decode(byte[] bytes) {
        return new String(bytes, StandardCharsets.UTF_8);
    }
}
