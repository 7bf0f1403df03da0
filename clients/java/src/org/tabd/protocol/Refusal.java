package org.tabd.protocol;

import java.util.List;

/** Why the server refused a request. Each has its number in docs/PROTOCOL.md. */
public sealed interface Refusal {
    /**
     * The number of the refusal.
     *
     * @return 1 to 22
     */
    int number();

    /**
     * Who asks is no user, or no longer.
     *
     * @param user who asks
     */
    record UnknownUser(String user) implements Refusal {
        @Override
        public int number() {
            return 1;
        }
    }

    /**
     * There is no such table.
     *
     * @param table its name
     */
    record NoTable(String table) implements Refusal {
        @Override
        public int number() {
            return 2;
        }
    }

    /**
     * A permission is missing.
     *
     * @param permission the first one that would do
     */
    record PermissionDenied(Permission permission) implements Refusal {
        @Override
        public int number() {
            return 3;
        }
    }

    /**
     * A scan asks for an authorization that the user doesn't hold.
     *
     * @param term the least such one
     */
    record BadAuthorizations(byte[] term) implements Refusal {
        @Override
        public int number() {
            return 4;
        }

        /** The term as a shell spells it. */
        @Override
        public String toString() {
            return "BadAuthorizations[term=" + Words.of(term) + "]";
        }
    }

    /**
     * The label of an update is none.
     *
     * @param update the first such update, from 0
     * @param offset how many bytes of it begin some label
     */
    record MalformedVisibility(long update, long offset) implements Refusal {
        @Override
        public int number() {
            return 5;
        }
    }

    /**
     * Constraints failed.
     *
     * @param violations each failed pair of constraint and code
     */
    record ConstraintViolation(List<Violation> violations) implements Refusal {
        @Override
        public int number() {
            return 6;
        }
    }

    /**
     * An update has a timestamp, where the table gives them.
     *
     * @param update the first such update, from 0
     */
    record TimestampNotAllowed(long update) implements Refusal {
        @Override
        public int number() {
            return 7;
        }
    }

    /** A mutation without updates. */
    record EmptyMutation() implements Refusal {
        @Override
        public int number() {
            return 8;
        }
    }

    /**
     * Something is over its limit.
     *
     * @param part what
     */
    record TooLarge(Part part) implements Refusal {
        /** What may be over its limit, by its number from 1. */
        public enum Part {
            /** A mutation has at most 1,000. */
            UPDATES,
            /** At most 1,048,576 bytes. */
            ROW,
            /** At most 1,048,576 bytes. */
            FAMILY,
            /** At most 1,048,576 bytes. */
            QUALIFIER,
            /** At most 1,048,576 bytes. */
            LABEL,
            /** At most 1,048,576 bytes. */
            VALUE,
            /** A scan names at most 1,000. */
            COLUMNS,
            /** At most 1,024, of at most 1,024 bytes. */
            AUTHORIZATIONS,
            /** At most 1,000 are asked for at once. */
            RANGES,
            /** A connection has at most 65,536 at once. */
            SESSIONS,
            /** The store has used them up. */
            NUMBERS
        }

        @Override
        public int number() {
            return 9;
        }
    }

    /**
     * There is such a table already.
     *
     * @param table its name
     */
    record TableExists(String table) implements Refusal {
        @Override
        public int number() {
            return 10;
        }
    }

    /**
     * There is such a user already.
     *
     * @param user the name
     */
    record UserExists(String user) implements Refusal {
        @Override
        public int number() {
            return 11;
        }
    }

    /**
     * There is no such user.
     *
     * @param user the name
     */
    record NoUser(String user) implements Refusal {
        @Override
        public int number() {
            return 12;
        }
    }

    /** The low row of a range is above its high one. */
    record BadRange() implements Refusal {
        @Override
        public int number() {
            return 13;
        }
    }

    /**
     * The connection has no such session: it was never given, or is closed.
     *
     * @param session its number
     */
    record NoSession(long session) implements Refusal {
        @Override
        public int number() {
            return 15;
        }
    }

    /**
     * The server couldn't read the request.
     *
     * @param reason why
     */
    record BadFrame(Reason reason) implements Refusal {
        /** Why a frame asks nothing, by its number from 1. */
        public enum Reason {
            /** It has no bytes. */
            EMPTY,
            /** It has over 8,388,608 bytes. */
            TOOLONG,
            /** The connection ended inside it. */
            CUT,
            /** The server doesn't know this request. */
            OPCODE,
            /** The fields aren't of its form. */
            FIELD,
            /** It is out of turn. */
            ORDER
        }

        @Override
        public int number() {
            return 16;
        }
    }

    /** The server had no memory for it, and nothing was done. */
    record NoMemory() implements Refusal {
        @Override
        public int number() {
            return 17;
        }
    }

    /** Root can't be dropped, and its permissions on the system don't change. */
    record RootFixed() implements Refusal {
        @Override
        public int number() {
            return 18;
        }
    }

    /** The permission GRANT on the system is root's alone. */
    record GrantInvalid() implements Refusal {
        @Override
        public int number() {
            return 19;
        }
    }

    /**
     * A tablet wasn't split.
     *
     * @param why why
     */
    record BadSplit(Why why) implements Refusal {
        /** Why a tablet isn't split, by its number. */
        public enum Why {
            /** The row is an end row already. */
            PRESENT,
            /** The tablet is too small. */
            SMALL,
            /** The tablet holds one row at most. */
            ONEROW
        }

        @Override
        public int number() {
            return 20;
        }
    }

    /**
     * More versions were asked for than the table shows.
     *
     * @param versions how many it shows
     */
    record VersionsRaised(long versions) implements Refusal {
        @Override
        public int number() {
            return 21;
        }
    }

    /**
     * A horizon was asked for below the table's.
     *
     * @param horizon the table's
     */
    record HorizonLowered(long horizon) implements Refusal {
        @Override
        public int number() {
            return 22;
        }
    }

    /**
     * The time of an update is below the table's horizon.
     *
     * @param update the first such update, from 0
     */
    record BelowHorizon(long update) implements Refusal {
        @Override
        public int number() {
            return 22;
        }
    }

    /** A horizon was asked of a table that gives the times. */
    record ServerTime() implements Refusal {
        @Override
        public int number() {
            return 22;
        }
    }
}
