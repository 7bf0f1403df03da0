package org.tabd.protocol;

import java.io.EOFException;
import java.io.IOException;
import java.nio.ByteBuffer;
import java.nio.charset.StandardCharsets;
import java.util.ArrayList;
import java.util.Arrays;
import java.util.LinkedHashSet;
import java.util.List;
import java.util.Set;
import java.util.SortedMap;
import java.util.TreeMap;

/** Reads the replies of a server, frame by frame, and demands of each that it is one. */
final class Replies {
    private static final int OK = 0x80;
    private static final int REFUSED = 0x81;
    private static final int CELL = 0x82;
    private static final int END = 0x83;
    private static final int OPENED = 0x84;
    private static final int ROW = 0x85;
    private static final int RANGE_END = 0x86;
    private static final int STATUS = 0x87;
    private static final int RIGHTS = 0x88;
    private static final byte[] NONE = {};

    /** Fills a buffer with at least one byte, or gives false at the end of the input. */
    @FunctionalInterface
    interface Source {
        boolean fill(ByteBuffer buffer) throws IOException;
    }

    private final Source source;
    // what came, and as a buffer to be filled; where the next byte of it is, and where it ends
    private byte[] bytes;
    private ByteBuffer buffer;
    private int at;
    private int limit;
    // of the frame that is read: where it ends, and the parts of the last cell, which its neighbour may share
    private int end;
    private Cell last = new Cell(NONE, NONE, NONE, NONE, 0, NONE);

    Replies(Source source, int capacity) {
        this.source = source;
        bytes = new byte[capacity];
        buffer = ByteBuffer.wrap(bytes);
    }

    /** Waits until there is a byte of a frame; false at the end of the input. */
    boolean await() throws IOException {
        return at < limit || fill();
    }

    /** The only frame of a reply: it is done. */
    Void done() throws IOException, RefusedException {
        only(OK);
        return ended(null);
    }

    /** The replies of so many writes: the refusals among them, by their places. */
    SortedMap<Integer, Refusal> refusals(int count) throws IOException {
        SortedMap<Integer, Refusal> refused = new TreeMap<>();
        for (int place = 0; place < count; place++) {
            try {
                done();
            } catch (RefusedException refusal) {
                refused.put(place, refusal.refusal());
            }
        }
        return refused;
    }

    long opened() throws IOException, RefusedException {
        only(OPENED);
        return ended(u32());
    }

    Status status() throws IOException, RefusedException {
        only(STATUS);
        return ended(new Status(i64(), i64(), i64()));
    }

    Rights rights() throws IOException, RefusedException {
        only(RIGHTS);
        Set<String> system = someOf(Permission.SYSTEM);
        Set<String> table = someOf(Permission.TABLE);
        long count = u32();
        List<byte[]> authorizations = new ArrayList<>();
        for (long index = 0; index < count; index++) {
            authorizations.add(field());
        }
        return ended(new Rights(system, table, authorizations));
    }

    List<byte[]> rows() throws IOException, RefusedException {
        List<byte[]> rows = new ArrayList<>();
        int opcode = first();
        while (opcode == ROW) {
            rows.add(ended(field()));
            opcode = frame();
        }
        end(opcode, false);
        return rows;
    }

    Batch batch(long count) throws IOException, RefusedException {
        List<Cell> cells = new ArrayList<>((int) Math.min(count, 1024));
        int opcode = cells(first(), cells, count);
        boolean more = cells.size() == count;
        end(opcode, more);
        return new Batch(cells, more);
    }

    List<List<Cell>> ranges(int count) throws IOException, RefusedException {
        List<List<Cell>> ranges = new ArrayList<>(count);
        int opcode = first();
        for (int index = 0; index < count; index++) {
            List<Cell> cells = new ArrayList<>();
            opcode = cells(opcode, cells, Long.MAX_VALUE);
            demand(opcode == RANGE_END, "a range ends by", opcode);
            ended(null);
            ranges.add(cells);
            opcode = frame();
        }
        end(opcode, false);
        return ranges;
    }

    /** Takes cells, of which this is the first frame, and gives the opcode of the frame behind them. */
    private int cells(int first, List<Cell> cells, long most) throws IOException {
        int opcode = first;
        while (opcode == CELL) {
            demand(cells.size() < most, "more cells than asked for:", most);
            last = ended(cell(last));
            cells.add(last);
            opcode = frame();
        }
        return opcode;
    }

    private void end(int opcode, boolean more) throws IOException {
        demand(opcode == END, "a list ends by", opcode);
        int told = u8();
        demand(told == (more ? 0 : 1), "an end that says", told);
        ended(null);
    }

    private Cell cell(Cell before) throws IOException {
        byte[] row = field(before.row());
        byte[] family = field(before.family());
        byte[] qualifier = field(before.qualifier());
        byte[] label = field(before.label());
        return new Cell(row, family, qualifier, label, i64(), field());
    }

    // ---- Frames.

    private void only(int wanted) throws IOException, RefusedException {
        int opcode = first();
        demand(opcode == wanted, "out of place is the reply", opcode);
    }

    /** The opcode of the first frame of a reply, which may be a refusal. */
    private int first() throws IOException, RefusedException {
        int opcode = frame();
        if (opcode == REFUSED) {
            throw new RefusedException(ended(refusal()));
        }
        return opcode;
    }

    /** Reads a whole frame, and gives its opcode. */
    private int frame() throws IOException {
        need(4);
        long length = Integer.toUnsignedLong(int32());
        demand(length >= 1 && length <= Frame.MAX_LENGTH, "a reply of so many bytes:", length);
        need((int) length);
        end = at + (int) length;
        return u8();
    }

    private <T> T ended(T told) throws IOException {
        demand(at == end, "bytes left over:", end - (long) at);
        return told;
    }

    private void need(int count) throws IOException {
        while (limit - at < count) {
            if (bytes.length - at < count) {
                room(count);
            }
            if (!fill()) {
                throw new EOFException("the server ended the connection");
            }
        }
    }

    /** Moves what is left to the front, of a larger array where this one is too small. */
    private void room(int count) {
        byte[] larger = count <= bytes.length ? bytes : new byte[Math.max(count, 2 * bytes.length)];
        System.arraycopy(bytes, at, larger, 0, limit - at);
        if (larger != bytes) {
            bytes = larger;
            buffer = ByteBuffer.wrap(larger);
        }
        limit -= at;
        at = 0;
    }

    private boolean fill() throws IOException {
        if (at == limit) {
            at = 0;
            limit = 0;
        }
        buffer.limit(bytes.length).position(limit);
        boolean found = source.fill(buffer);
        limit = buffer.position();
        return found;
    }

    private static void demand(boolean holds, String why, long told) throws ProtocolException {
        if (!holds) {
            throw new ProtocolException("the server's reply isn't understood: " + why + " " + told);
        }
    }

    // ---- Fields of a frame.

    private void within(long count) throws IOException {
        demand(count <= end - at, "a frame is cut that should have", count);
    }

    private int u8() throws IOException {
        within(1);
        return bytes[at++] & 0xff;
    }

    private long u32() throws IOException {
        within(4);
        return Integer.toUnsignedLong(int32());
    }

    private long i64() throws IOException {
        within(8);
        long high = int32();
        return high << 32 | Integer.toUnsignedLong(int32());
    }

    private int int32() {
        int from = at;
        at = from + 4;
        return bytes[from] << 24 | (bytes[from + 1] & 0xff) << 16 | (bytes[from + 2] & 0xff) << 8 | bytes[from + 3] & 0xff;
    }

    private byte[] field() throws IOException {
        return field(NONE);
    }

    /** A field, which is the known one where it has the same bytes. */
    private byte[] field(byte[] known) throws IOException {
        within(4);
        int count = int32();
        int from = at;
        if (count < 0 || count > end - from) {
            within(Integer.toUnsignedLong(count));
        }
        at = from + count;
        if (count == known.length && Arrays.equals(known, 0, count, bytes, from, at)) {
            return known;
        }
        return Arrays.copyOfRange(bytes, from, at);
    }

    private String name() throws IOException {
        byte[] bytes = field();
        for (byte one : bytes) {
            demand(one > ' ', "a name has the byte", one);
        }
        return new String(bytes, StandardCharsets.US_ASCII);
    }

    private <T> T oneOf(T[] all, int first) throws IOException {
        int place = u8() - first;
        demand(place >= 0 && place < all.length, "there is no number", place + (long) first);
        return all[place];
    }

    private Set<String> someOf(List<String> all) throws IOException {
        int bits = u8();
        demand(bits >>> all.size() == 0, "permissions that aren't known:", bits);
        Set<String> found = new LinkedHashSet<>();
        for (int place = 0; place < all.size(); place++) {
            if ((bits >>> place & 1) == 1) {
                found.add(all.get(place));
            }
        }
        return found;
    }

    private Permission permission() throws IOException {
        boolean ofTable = oneOf(new Boolean[] {false, true}, 0);
        String name = oneOf((ofTable ? Permission.TABLE : Permission.SYSTEM).toArray(new String[0]), 0);
        return new Permission(name, ofTable ? name() : null);
    }

    private List<Violation> violations() throws IOException {
        long count = u32();
        List<Violation> found = new ArrayList<>();
        for (long index = 0; index < count; index++) {
            found.add(new Violation(oneOf(Constraint.values(), 1), u8(), u32()));
        }
        return found;
    }

    private Refusal refusal() throws IOException {
        int number = u8();
        return switch (number) {
            case 1 -> new Refusal.UnknownUser(name());
            case 2 -> new Refusal.NoTable(name());
            case 3 -> new Refusal.PermissionDenied(permission());
            case 4 -> new Refusal.BadAuthorizations(field());
            case 5 -> new Refusal.MalformedVisibility(u32(), u32());
            case 6 -> new Refusal.ConstraintViolation(violations());
            case 7 -> new Refusal.TimestampNotAllowed(u32());
            case 8 -> new Refusal.EmptyMutation();
            case 9 -> new Refusal.TooLarge(oneOf(Refusal.TooLarge.Part.values(), 1));
            case 10 -> new Refusal.TableExists(name());
            case 11 -> new Refusal.UserExists(name());
            case 12 -> new Refusal.NoUser(name());
            case 13 -> new Refusal.BadRange();
            case 15 -> new Refusal.NoSession(u32());
            case 16 -> new Refusal.BadFrame(oneOf(Refusal.BadFrame.Reason.values(), 1));
            case 17 -> new Refusal.NoMemory();
            case 18 -> new Refusal.RootFixed();
            case 19 -> new Refusal.GrantInvalid();
            case 20 -> new Refusal.BadSplit(oneOf(Refusal.BadSplit.Why.values(), 0));
            case 21 -> new Refusal.VersionsRaised(u32());
            case 22 -> ofHorizon(oneOf(new Integer[] {0, 1, 2}, 0));
            default -> throw new ProtocolException("the server's reply isn't understood: there is no refusal " + number);
        };
    }

    private Refusal ofHorizon(int why) throws IOException {
        return switch (why) {
            case 0 -> new Refusal.HorizonLowered(i64());
            case 1 -> new Refusal.BelowHorizon(u32());
            default -> new Refusal.ServerTime();
        };
    }
}
