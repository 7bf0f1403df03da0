package org.tabd.accumulo.core.client;

import java.io.Serial;
import java.util.List;
import java.util.Map;
import java.util.Set;
import org.tabd.accumulo.core.client.security.SecurityErrorCode;
import org.tabd.accumulo.core.data.ConstraintViolationSummary;

/** Mutations that a writer was given weren't done, or it isn't known whether they were. All others were done. */
public class MutationsRejectedException extends AccumuloException {
    @Serial
    private static final long serialVersionUID = 1L;

    private final transient List<ConstraintViolationSummary> violations;
    private final transient Map<String, Set<SecurityErrorCode>> security;
    /** How many failed otherwise. */
    private final int unknown;

    /**
     * Says what happened to which.
     *
     * @param violations what the server refused for the mutations' own sake
     * @param security what isn't allowed, by table
     * @param unknown how many mutations failed otherwise, or may have
     * @param cause the first refusal or fault
     */
    public MutationsRejectedException(
            List<ConstraintViolationSummary> violations, Map<String, Set<SecurityErrorCode>> security, int unknown, Throwable cause) {
        super("constraint violations : " + violations + "  security codes: " + security + "  # exceptions unknown : " + unknown
                + ", first " + cause.getMessage(), cause);
        this.violations = List.copyOf(violations);
        this.security = Map.copyOf(security);
        this.unknown = unknown;
    }

    /**
     * What the server refused for the mutations' own sake: failed constraints, malformed labels, timestamps that aren't taken, and parts
     * that are too large.
     *
     * @return the summaries
     */
    public List<ConstraintViolationSummary> getConstraintViolationSummaries() {
        return violations;
    }

    /**
     * What isn't allowed.
     *
     * @return the codes, by the table's name; Accumulo has tablets here
     */
    public Map<String, Set<SecurityErrorCode>> getSecurityErrorCodes() {
        return security;
    }

    /**
     * How many mutations failed otherwise, or may have.
     *
     * @return the count
     */
    public int getUnknownExceptions() {
        return unknown;
    }
}
