package org.tabd.protocol;

import java.io.IOException;
import java.nio.charset.StandardCharsets;
import java.util.Collection;
import java.util.List;
import java.util.Set;
import java.util.SortedMap;
import java.util.regex.Pattern;

/**
 * A request: the bytes of its frame, and how its reply is read. Names are checked here; all else the server judges.
 *
 * @param <T> what is told of it
 */
public final class Request<T> {
    /** Reads the frames of a reply. */
    @FunctionalInterface
    interface Form<T> {
        T read(Replies replies) throws IOException, RefusedException;
    }

    private static final Pattern NAME = Pattern.compile("[a-zA-Z0-9_.-]{1,128}");
    private static final int SMALL = 64;

    private final Frame frame;
    private final Form<T> form;

    private Request(Frame frame, Form<T> form) {
        this.frame = frame;
        this.form = form;
    }

    /** A request of one frame, into whose first four bytes its length is put. */
    private static <T> Request<T> of(Frame frame, Form<T> form) {
        if (frame.length() - 4 > Frame.MAX_LENGTH) {
            throw new RequestTooLongException(frame.length() - 4);
        }
        frame.seal(0);
        return new Request<>(frame, form);
    }

    /**
     * The frame, its length in front.
     *
     * @return the bytes, which aren't to be changed
     */
    Frame frame() {
        return frame;
    }

    Form<T> form() {
        return form;
    }

    /**
     * Checks a name of a user or a table.
     *
     * @param name the name
     * @return its bytes
     * @throws IllegalArgumentException if it isn't 1 to 128 of {@code a-z A-Z 0-9 _ - .}
     */
    public static byte[] name(String name) {
        if (name == null || !NAME.matcher(name).matches()) {
            throw new IllegalArgumentException("not a name, which is 1 to 128 of a-z A-Z 0-9 _ - . : " + name);
        }
        return name.getBytes(StandardCharsets.US_ASCII);
    }

    private static Frame begin(int opcode) {
        return new Frame(SMALL).u32(0).u8(opcode);
    }

    private static Frame named(int opcode, String name) {
        return begin(opcode).field(name(name));
    }

    private static Request<Void> done(Frame frame) {
        return of(frame, Replies::done);
    }

    /**
     * Says who asks on a connection; the first request of each, and no other.
     *
     * @param user who asks
     * @return the request
     */
    static Request<Void> hello(String user) {
        return done(named(0x01, user));
    }

    /**
     * Makes a table.
     *
     * @param table its name
     * @param serverTime whether it gives the times itself
     * @param versions how many versions of a column it shows, 1 to 1,000
     * @return the request
     */
    public static Request<Void> createTable(String table, boolean serverTime, int versions) {
        return done(named(0x02, table).u8(serverTime ? 1 : 0).u32(versions));
    }

    /**
     * Drops a table, its cells and all rights on it.
     *
     * @param table its name
     * @return the request
     */
    public static Request<Void> dropTable(String table) {
        return done(named(0x03, table));
    }

    /**
     * Makes a user without rights.
     *
     * @param user the name
     * @return the request
     */
    public static Request<Void> createUser(String user) {
        return done(named(0x04, user));
    }

    /**
     * Drops a user, and what the user may do.
     *
     * @param user the name
     * @return the request
     */
    public static Request<Void> dropUser(String user) {
        return done(named(0x05, user));
    }

    /**
     * Gives a user these authorizations in place of those held.
     *
     * @param user the name
     * @param authorizations the authorizations
     * @return the request
     */
    public static Request<Void> setAuthorizations(String user, Collection<byte[]> authorizations) {
        return done(named(0x06, user).fields(authorizations));
    }

    /**
     * Gives a user a permission.
     *
     * @param user the name
     * @param permission the permission
     * @return the request
     */
    public static Request<Void> grant(String user, Permission permission) {
        return done(permission(named(0x07, user), permission));
    }

    /**
     * Takes a permission from a user.
     *
     * @param user the name
     * @param permission the permission
     * @return the request
     */
    public static Request<Void> revoke(String user, Permission permission) {
        return done(permission(named(0x08, user), permission));
    }

    private static Frame permission(Frame frame, Permission permission) {
        if (permission.table() == null) {
            return frame.u8(0).u8(Permission.SYSTEM.indexOf(permission.name()));
        }
        return frame.u8(1).u8(Permission.TABLE.indexOf(permission.name())).field(name(permission.table()));
    }

    /**
     * Sets the constraints of a table in place of those that it has.
     *
     * @param table its name
     * @param constraints the constraints
     * @return the request
     */
    public static Request<Void> setConstraints(String table, Set<Constraint> constraints) {
        return done(named(0x09, table).u8(constraints.stream().mapToInt(it -> 1 << it.ordinal()).sum()));
    }

    /**
     * Writes all updates of a row or none.
     *
     * @param table the table
     * @param row the row
     * @param updates the updates, at most 1,000
     * @return the request
     */
    public static Request<Void> write(String table, byte[] row, Updates updates) {
        Frame frame = new Frame(SMALL + row.length + updates.frame().length());
        putWrite(frame, name(table), row, updates);
        return done(frame);
    }

    /**
     * Adds the frame of a write, its length in front.
     *
     * @param frame what it is added to
     * @param table the table's name, in bytes
     * @param row the row
     * @param updates the updates
     * @throws RequestTooLongException if no frame can hold it; nothing is added then
     */
    public static void putWrite(Frame frame, byte[] table, byte[] row, Updates updates) {
        int begin = frame.length();
        frame.u32(0).u8(0x0a).field(table).field(row).u32(updates.count());
        frame.raw(updates.frame().array(), 0, updates.frame().length()).seal(begin);
        int length = frame.length() - begin - 4;
        if (length > Frame.MAX_LENGTH) {
            frame.cut(begin);
            throw new RequestTooLongException(length);
        }
    }

    /**
     * Many writes, each of which is done or refused by itself.
     *
     * @param frames their frames, as {@link #putWrite} adds them; they aren't to be changed before they are sent
     * @param count how many there are
     * @return the request, of which the refusals are told, by the places of their writes from 0
     */
    public static Request<SortedMap<Integer, Refusal>> writes(Frame frames, int count) {
        return new Request<>(frames, replies -> replies.refusals(count));
    }

    /**
     * Opens a session on what a scan would show now.
     *
     * @param table the table
     * @param rows the rows
     * @param columns the columns; none means all
     * @param authorizations under which labels are shown
     * @return the request, of which the number of the session is told
     */
    public static Request<Long> open(String table, RowRange rows, List<Column> columns, Collection<byte[]> authorizations) {
        Frame frame = range(named(0x0b, table), rows).u32(columns.size());
        for (Column column : columns) {
            frame.field(column.family()).u8(column.qualifier() == null ? 0 : 1);
            if (column.qualifier() != null) {
                frame.field(column.qualifier());
            }
        }
        return of(frame.fields(authorizations), Replies::opened);
    }

    private static Frame range(Frame frame, RowRange rows) {
        return bound(bound(frame, rows.low(), rows.withLow()), rows.high(), rows.withHigh());
    }

    private static Frame bound(Frame frame, byte[] row, boolean with) {
        return row == null ? frame.u8(0) : frame.u8(with ? 1 : 2).field(row);
    }

    /**
     * Takes the next cells of a session.
     *
     * @param session its number
     * @param count how many, up to 4,294,967,295
     * @return the request
     */
    public static Request<Batch> next(long session, long count) {
        return of(begin(0x0c).u32(session).u32(count), replies -> replies.batch(count));
    }

    /**
     * Takes what a session shows in each of some ranges, whatever was taken before.
     *
     * @param session its number
     * @param ranges the ranges, at most 1,000
     * @return the request, of which the cells of each range are told
     */
    public static Request<List<List<Cell>>> many(long session, List<RowRange> ranges) {
        Frame frame = begin(0x0d).u32(session).u32(ranges.size());
        ranges.forEach(rows -> range(frame, rows));
        return of(frame, replies -> replies.ranges(ranges.size()));
    }

    /**
     * Gives a session up.
     *
     * @param session its number
     * @return the request
     */
    public static Request<Void> close(long session) {
        return done(begin(0x0e).u32(session));
    }

    /**
     * Makes sorted tables of what is in memory.
     *
     * @param table the table
     * @return the request
     */
    public static Request<Void> flush(String table) {
        return done(named(0x0f, table));
    }

    /**
     * Merges sorted tables.
     *
     * @param table the table
     * @param full whether all that each tablet holds, and not some
     * @return the request
     */
    public static Request<Void> compact(String table, boolean full) {
        return done(named(0x10, table).u8(full ? 1 : 0));
    }

    /**
     * Splits a tablet in two.
     *
     * @param table the table
     * @param row the last row of the lower one
     * @return the request
     */
    public static Request<Void> addSplit(String table, byte[] row) {
        return done(named(0x11, table).field(row));
    }

    /**
     * Asks at which rows a table is split.
     *
     * @param table the table
     * @return the request, of which the rows are told, rising
     */
    public static Request<List<byte[]>> splits(String table) {
        return of(named(0x12, table), Replies::rows);
    }

    /**
     * Asks what a table consists of.
     *
     * @param table the table
     * @return the request
     */
    public static Request<Status> status(String table) {
        return of(named(0x13, table), Replies::status);
    }

    /**
     * Asks what the asker may do.
     *
     * @param table the table about which it is asked
     * @return the request
     */
    public static Request<Rights> rights(String table) {
        return of(named(0x14, table), Replies::rights);
    }

    /**
     * Lowers how many versions of a column are shown.
     *
     * @param table the table
     * @param versions how many, 1 to 1,000
     * @return the request
     */
    public static Request<Void> setVersions(String table, int versions) {
        return done(named(0x15, table).u32(versions));
    }

    /**
     * Raises the horizon of a table: no update below it is taken from then on.
     *
     * @param table the table
     * @param horizon the least time that is taken
     * @return the request
     */
    public static Request<Void> setHorizon(String table, long horizon) {
        return done(named(0x16, table).i64(horizon));
    }

    /**
     * Lets the server begin its history anew.
     *
     * @return the request
     */
    public static Request<Void> rotate() {
        return done(begin(0x17));
    }
}
