package org.tabd.accumulo.core.data;

/** How often a server refused mutations for one reason. */
public final class ConstraintViolationSummary {
    /** The class of the constraint, as Accumulo names it, or the name of the server's refusal. */
    public final String constrainClass;

    /** The code of the violation. */
    public final short violationCode;

    /** What that is. */
    public final String violationDescription;

    /** How many mutations it was. */
    public final long numberOfViolatingMutations;

    /**
     * A summary.
     *
     * @param constrainClass the class of the constraint
     * @param violationCode the code of the violation
     * @param violationDescription what that is
     * @param numberOfViolatingMutations how many mutations it was
     */
    public ConstraintViolationSummary(
            String constrainClass, short violationCode, String violationDescription, long numberOfViolatingMutations) {
        this.constrainClass = constrainClass;
        this.violationCode = violationCode;
        this.violationDescription = violationDescription;
        this.numberOfViolatingMutations = numberOfViolatingMutations;
    }

    /**
     * The class of the constraint.
     *
     * @return its name
     */
    public String getConstrainClass() {
        return constrainClass;
    }

    /**
     * The code of the violation.
     *
     * @return the code
     */
    public short getViolationCode() {
        return violationCode;
    }

    /**
     * What the violation is.
     *
     * @return a text for people
     */
    public String getViolationDescription() {
        return violationDescription;
    }

    /**
     * How many mutations it was.
     *
     * @return the count
     */
    public long getNumberOfViolatingMutations() {
        return numberOfViolatingMutations;
    }

    @Override
    public String toString() {
        return "ConstraintViolationSummary(constrainClass:" + constrainClass + ", violationCode:" + violationCode
                + ", violationDescription:" + violationDescription + ", numberOfViolatingMutations:" + numberOfViolatingMutations + ")";
    }
}
