package org.tabd.accumulo.core.security;

import java.io.ByteArrayOutputStream;
import java.nio.charset.StandardCharsets;
import java.util.ArrayList;
import java.util.Arrays;
import java.util.Comparator;
import java.util.List;
import java.util.TreeSet;
import org.tabd.accumulo.core.data.ArrayByteSequence;
import org.tabd.accumulo.core.data.ByteSequence;
import org.tabd.accumulo.core.util.BadArgumentException;
import org.tabd.hadoop.io.Text;

/**
 * A label: terms joined by {@code &} or {@code |}, mixed only through parentheses, at most 64 deep; or empty. A term is made of
 * {@code a-z A-Z 0-9 _ - : . /}, or stands in double quotes, with a backslash before each quote and backslash inside. It doesn't change.
 */
public class ColumnVisibility {
    private static final int DEEPEST = 64;
    private static final Comparator<Node> BY_SHAPE = ColumnVisibility::compare;

    private final byte[] expression;
    private final Node root;

    /** What stands at a place of a label. */
    public enum NodeType {
        /** Nothing: the empty label. */
        EMPTY,
        /** A term. */
        TERM,
        /** Labels one of which has to hold. */
        OR,
        /** Labels all of which have to hold. */
        AND
    }

    /** A part of a label. */
    public static final class Node {
        private final NodeType type;
        private final List<Node> children;
        private final byte[] term;

        private Node(NodeType type, List<Node> children, byte[] term) {
            this.type = type;
            this.children = children;
            this.term = term;
        }

        /**
         * What it is.
         *
         * @return the type
         */
        public NodeType getType() {
            return type;
        }

        /**
         * What it is made of.
         *
         * @return the parts, which are none for a term
         */
        public List<Node> getChildren() {
            return List.copyOf(children);
        }

        /**
         * The term, without the quotes and backslashes of the label.
         *
         * @return the term, or no bytes for what isn't one
         */
        public ByteSequence getTerm() {
            return new ArrayByteSequence(term);
        }
    }

    /** Takes the bytes of a label from left to right. */
    private static final class Parser {
        private final byte[] text;
        private int at;
        private int depth;

        Parser(byte[] text) {
            this.text = text;
        }

        private int next() {
            return at < text.length ? text[at] : -1;
        }

        private BadArgumentException fault(String why) {
            return new BadArgumentException(why, new String(text, StandardCharsets.UTF_8), at);
        }

        Node whole() {
            Node found = joined();
            if (at < text.length) {
                throw fault(next() == ')' ? "an unopened parenthesis" : "an operator is missing");
            }
            return found;
        }

        /** Operands with one operator between them. */
        private Node joined() {
            List<Node> parts = new ArrayList<>(List.of(operand()));
            int operator = next();
            while (next() == '&' || next() == '|') {
                if (next() != operator) {
                    throw fault("cannot mix & and |");
                }
                at++;
                parts.add(operand());
            }
            return parts.size() == 1 ? parts.get(0) : new Node(operator == '&' ? NodeType.AND : NodeType.OR, parts, new byte[0]);
        }

        private Node operand() {
            if (next() == '(') {
                return inParentheses();
            }
            byte[] term = next() == '"' ? quoted() : plain();
            return new Node(NodeType.TERM, List.of(), term);
        }

        private Node inParentheses() {
            if (depth == DEEPEST) {
                throw fault("parentheses are too deep");
            }
            at++;
            depth++;
            Node inside = joined();
            if (next() != ')') {
                throw fault("a parenthesis isn't closed");
            }
            at++;
            depth--;
            return inside;
        }

        private byte[] plain() {
            int from = at;
            while (at < text.length && isPlain(text[at])) {
                at++;
            }
            if (at == from) {
                throw fault(at < text.length ? "bad character" : "a term is missing");
            }
            return Arrays.copyOfRange(text, from, at);
        }

        private byte[] quoted() {
            ByteArrayOutputStream term = new ByteArrayOutputStream();
            for (at++; next() != '"' || at >= text.length; at++) {
                if (next() == '\\') {
                    at++;
                    if (next() != '"' && next() != '\\') {
                        throw fault("invalid escaping within quotes");
                    }
                }
                if (at >= text.length) {
                    throw fault("unclosed quote");
                }
                term.write(text[at]);
            }
            if (term.size() == 0) {
                throw fault("empty term");
            }
            at++;
            return term.toByteArray();
        }
    }

    /** The empty label, which always holds. */
    public ColumnVisibility() {
        this(new byte[0]);
    }

    /**
     * A label of a string, as UTF-8.
     *
     * @param expression the text of the label
     * @throws BadArgumentException if it is malformed
     */
    public ColumnVisibility(String expression) {
        this(expression.getBytes(StandardCharsets.UTF_8), true);
    }

    /**
     * A label of a text.
     *
     * @param expression the text of the label
     * @throws BadArgumentException if it is malformed
     */
    public ColumnVisibility(Text expression) {
        this(expression.copyBytes(), true);
    }

    /**
     * A label of bytes, which are copied.
     *
     * @param expression the text of the label
     * @throws BadArgumentException if it is malformed
     */
    public ColumnVisibility(byte[] expression) {
        this(expression.clone(), true);
    }

    private ColumnVisibility(byte[] expression, boolean owned) {
        this.expression = expression;
        root = expression.length == 0 ? new Node(NodeType.EMPTY, List.of(), expression) : new Parser(expression).whole();
    }

    private static boolean isPlain(byte one) {
        return one >= 'a' && one <= 'z' || one >= 'A' && one <= 'Z' || one >= '0' && one <= '9' || "_-:./".indexOf(one) >= 0;
    }

    /**
     * The text of the label.
     *
     * @return a copy
     */
    public byte[] getExpression() {
        return expression.clone();
    }

    /**
     * The label, understood.
     *
     * @return its root
     */
    public Node getParseTree() {
        return root;
    }

    /**
     * A normal form: of labels that differ in the order, the repetition and the grouping of equal operators, it is the same. A server
     * keeps a label as it is written, so such labels are different columns.
     *
     * @return the text of the normal form
     */
    public byte[] flatten() {
        return root.type == NodeType.EMPTY ? new byte[0] : text(normal(root)).getBytes(StandardCharsets.ISO_8859_1);
    }

    private static Node normal(Node node) {
        if (node.type == NodeType.TERM) {
            return node;
        }
        TreeSet<Node> parts = new TreeSet<>(BY_SHAPE);
        for (Node child : node.children) {
            Node part = normal(child);
            parts.addAll(part.type == node.type ? part.children : List.of(part));
        }
        return parts.size() == 1 ? parts.first() : new Node(node.type, List.copyOf(parts), node.term);
    }

    private static int compare(Node one, Node other) {
        int found = one.type.compareTo(other.type);
        if (found == 0) {
            found = Arrays.compareUnsigned(one.term, other.term);
        }
        if (found == 0) {
            found = Integer.compare(one.children.size(), other.children.size());
        }
        for (int index = 0; found == 0 && index < one.children.size(); index++) {
            found = compare(one.children.get(index), other.children.get(index));
        }
        return found;
    }

    /** The text of a part, a byte a character. */
    private static String text(Node node) {
        if (node.type == NodeType.TERM) {
            return new String(quote(node.term), StandardCharsets.ISO_8859_1);
        }
        List<String> parts = node.children.stream()
                .map(child -> child.type == NodeType.TERM ? text(child) : "(" + text(child) + ")").toList();
        return String.join(node.type == NodeType.AND ? "&" : "|", parts);
    }

    /**
     * The term as it stands in a label: in quotes where it has to.
     *
     * @param term the term, as UTF-8
     * @return its text in a label
     */
    public static String quote(String term) {
        return new String(quote(term.getBytes(StandardCharsets.UTF_8)), StandardCharsets.UTF_8);
    }

    /**
     * The term as it stands in a label: in quotes where it has to.
     *
     * @param term the term
     * @return its text in a label
     */
    public static byte[] quote(byte[] term) {
        ByteArrayOutputStream quoted = new ByteArrayOutputStream(term.length + 2);
        boolean plain = true;
        quoted.write('"');
        for (byte one : term) {
            plain &= isPlain(one);
            if (one == '"' || one == '\\') {
                quoted.write('\\');
            }
            quoted.write(one);
        }
        quoted.write('"');
        return plain ? term : quoted.toByteArray();
    }

    /** Whether the texts are the same; labels that mean the same may differ. */
    @Override
    public boolean equals(Object other) {
        return other instanceof ColumnVisibility visibility && Arrays.equals(expression, visibility.expression);
    }

    @Override
    public int hashCode() {
        return Arrays.hashCode(expression);
    }

    /** The label in brackets. */
    @Override
    public String toString() {
        return "[" + new String(expression, StandardCharsets.UTF_8) + "]";
    }
}
