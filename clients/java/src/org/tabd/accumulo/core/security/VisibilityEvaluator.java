package org.tabd.accumulo.core.security;

/** Judges under some authorizations whether labels hold, as a server does. */
public class VisibilityEvaluator {
    private final Authorizations authorizations;

    /**
     * Judges under these.
     *
     * @param authorizations the authorizations
     */
    public VisibilityEvaluator(Authorizations authorizations) {
        this.authorizations = authorizations;
    }

    /**
     * Whether a label holds.
     *
     * @param visibility the label
     * @return whether it does
     * @throws VisibilityParseException never; Accumulo's says so
     */
    public boolean evaluate(ColumnVisibility visibility) throws VisibilityParseException {
        return holds(visibility.getParseTree());
    }

    private boolean holds(ColumnVisibility.Node node) {
        return switch (node.getType()) {
            case EMPTY -> true;
            case TERM -> authorizations.contains(node.getTerm());
            case OR -> node.getChildren().stream().anyMatch(this::holds);
            case AND -> node.getChildren().stream().allMatch(this::holds);
        };
    }
}
