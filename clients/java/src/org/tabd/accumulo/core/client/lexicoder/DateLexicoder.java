package org.tabd.accumulo.core.client.lexicoder;

import java.util.Date;

/** Dates, by their milliseconds. */
public class DateLexicoder implements Lexicoder<Date> {
    /** Dates, by their milliseconds. */
    public DateLexicoder() {}

    @Override
    public byte[] encode(Date object) {
        return new LongLexicoder().encode(object.getTime());
    }

    @Override
    public Date decode(byte[] bytes) {
        return new Date(new LongLexicoder().decode(bytes));
    }
}
