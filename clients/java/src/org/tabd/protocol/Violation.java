package org.tabd.protocol;

/**
 * A constraint that failed.
 *
 * @param constraint which
 * @param code by which of its codes
 * @param update the first update of the mutation that failed it, from 0
 */
public record Violation(Constraint constraint, int code, long update) {}
