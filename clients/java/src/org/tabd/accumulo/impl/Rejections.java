package org.tabd.accumulo.impl;

import java.util.EnumSet;
import java.util.HashMap;
import java.util.LinkedHashMap;
import java.util.List;
import java.util.Locale;
import java.util.Map;
import java.util.Optional;
import java.util.Set;
import org.tabd.accumulo.core.client.MutationsRejectedException;
import org.tabd.accumulo.core.client.security.SecurityErrorCode;
import org.tabd.accumulo.core.data.ConstraintViolationSummary;
import org.tabd.protocol.Refusal;
import org.tabd.protocol.RefusedException;
import org.tabd.protocol.Violation;

/** Which mutations of a writer weren't done, and why. */
final class Rejections {
    private static final String CORE = "org.tabd.accumulo.core.data.constraints.";
    private static final String EXAMPLES = "org.tabd.accumulo.examples.constraints.";

    /** What the codes of the constraint are about, from 1. */
    private static final List<String> PARTS = List.of("Row", "Column family", "Column qualifier");

    /** A reason for which a mutation isn't done. */
    private record Reason(String constraint, int code, String description) {}

    private final String user;
    private final Map<Reason, Long> violations = new LinkedHashMap<>();
    private final Map<String, Set<SecurityErrorCode>> security = new HashMap<>();
    private int unknown;
    private Throwable first;

    Rejections(String user) {
        this.user = user;
    }

    /** Throws what there is. */
    void check() throws MutationsRejectedException {
        if (violations.isEmpty() && security.isEmpty() && unknown == 0) {
            return;
        }
        List<ConstraintViolationSummary> summaries = violations.entrySet().stream()
                .map(it -> summary(it.getKey(), it.getValue())).toList();
        throw new MutationsRejectedException(summaries, security, unknown, first);
    }

    private static ConstraintViolationSummary summary(Reason reason, long count) {
        return new ConstraintViolationSummary(reason.constraint(), (short) reason.code(), reason.description(), count);
    }

    /** So many mutations failed, or may have. */
    void fail(int count, Throwable why) {
        unknown += count;
        first = first == null ? why : first;
    }

    /** A mutation was refused. */
    void refuse(Refusal refusal) {
        first = first == null ? new RefusedException(refusal) : first;
        Optional<SecurityErrorCode> code = Faults.code(refusal);
        if (code.isPresent()) {
            security.computeIfAbsent(table(refusal), table -> EnumSet.noneOf(SecurityErrorCode.class)).add(code.get());
        } else if (refusal instanceof Refusal.ConstraintViolation failed) {
            failed.violations().forEach(this::violate);
        } else if (refusal instanceof Refusal.NoMemory) {
            unknown++;
        } else {
            count(new Reason(refusal.getClass().getSimpleName(), refusal.number(), described(refusal)));
        }
    }

    /** The table of a refusal, or the user where it is of none. */
    private String table(Refusal refusal) {
        if (refusal instanceof Refusal.NoTable none) {
            return none.table();
        }
        boolean ofTable = refusal instanceof Refusal.PermissionDenied denied && denied.permission().table() != null;
        return ofTable ? ((Refusal.PermissionDenied) refusal).permission().table() : user;
    }

    private void violate(Violation violation) {
        count(switch (violation.constraint()) {
            case KEYSIZE -> new Reason(CORE + "DefaultKeySizeConstraint", violation.code(), "Key was larger than 1MB");
            case VISIBILITY -> new Reason(
                    CORE + "VisibilityConstraint", violation.code(), "User does not have authorization on column visibility");
            case ALPHANUM -> new Reason(EXAMPLES + "AlphaNumKeyConstraint", violation.code(), PARTS.get(violation.code() - 1)
                    + " was not alpha numeric");
            case NUMERIC -> new Reason(EXAMPLES + "NumericValueConstraint", violation.code(), "Value is not numeric");
        });
    }

    private void count(Reason reason) {
        violations.merge(reason, 1L, Long::sum);
    }

    private static String described(Refusal refusal) {
        if (refusal instanceof Refusal.MalformedVisibility) {
            return "a label is malformed";
        } else if (refusal instanceof Refusal.TimestampNotAllowed) {
            return "the table gives the timestamps";
        } else if (refusal instanceof Refusal.BelowHorizon) {
            return "a timestamp is below the table's horizon";
        } else if (refusal instanceof Refusal.TooLarge large) {
            return "over a limit: " + large.part().name().toLowerCase(Locale.ROOT);
        }
        return refusal.toString();
    }
}
