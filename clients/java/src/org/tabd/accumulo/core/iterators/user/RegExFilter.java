package org.tabd.accumulo.core.iterators.user;

import java.nio.charset.StandardCharsets;
import java.util.Map;
import java.util.regex.Matcher;
import java.util.regex.Pattern;
import org.tabd.accumulo.core.client.IteratorSetting;
import org.tabd.accumulo.core.data.Key;
import org.tabd.accumulo.core.data.Value;
import org.tabd.accumulo.core.iterators.Filter;

/** Shows cells whose parts match regular expressions. */
public class RegExFilter extends Filter {
    private static final String ROW = "rowRegex";
    private static final String FAMILY = "colfRegex";
    private static final String QUALIFIER = "colqRegex";
    private static final String VALUE = "valueRegex";
    private static final String OR_FIELDS = "orFields";
    private static final String MATCH_SUBSTRING = "matchSubstring";

    private final Pattern row;
    private final Pattern family;
    private final Pattern qualifier;
    private final Pattern value;
    private final boolean orFields;
    private final boolean matchSubstring;

    /**
     * A filter of these options.
     *
     * @param options the options, as {@link #setRegexs} sets them
     */
    public RegExFilter(Map<String, String> options) {
        super(options);
        row = pattern(options.get(ROW));
        family = pattern(options.get(FAMILY));
        qualifier = pattern(options.get(QUALIFIER));
        value = pattern(options.get(VALUE));
        orFields = Boolean.parseBoolean(options.get(OR_FIELDS));
        matchSubstring = Boolean.parseBoolean(options.get(MATCH_SUBSTRING));
    }

    private static Pattern pattern(String regex) {
        return regex == null ? null : Pattern.compile(regex);
    }

    @Override
    public boolean isOfColumns() {
        return value == null;
    }

    @Override
    public boolean accept(Key key, Value of) {
        if (orFields) {
            return matches(row, key.getRowData().toArray(), false) || matches(family, key.getColumnFamilyData().toArray(), false)
                    || matches(qualifier, key.getColumnQualifierData().toArray(), false) || matches(value, of.get(), false);
        }
        return matches(row, key.getRowData().toArray(), true) && matches(family, key.getColumnFamilyData().toArray(), true)
                && matches(qualifier, key.getColumnQualifierData().toArray(), true) && matches(value, of.get(), true);
    }

    /** Whether it matches, or what is said where there is no expression. */
    private boolean matches(Pattern pattern, byte[] text, boolean otherwise) {
        if (pattern == null) {
            return otherwise;
        }
        Matcher matcher = pattern.matcher(new String(text, StandardCharsets.UTF_8));
        return matchSubstring ? matcher.find() : matcher.matches();
    }

    /**
     * Sets the expressions, which match whole parts.
     *
     * @param setting the filter
     * @param rowTerm what the row matches, or null
     * @param cfTerm what the family matches, or null
     * @param cqTerm what the qualifier matches, or null
     * @param valueTerm what the value matches, or null
     * @param orFields whether one match will do
     */
    public static void setRegexs(
            IteratorSetting setting, String rowTerm, String cfTerm, String cqTerm, String valueTerm, boolean orFields) {
        setRegexs(setting, rowTerm, cfTerm, cqTerm, valueTerm, orFields, false);
    }

    /**
     * Sets the expressions.
     *
     * @param setting the filter
     * @param rowTerm what the row matches, or null
     * @param cfTerm what the family matches, or null
     * @param cqTerm what the qualifier matches, or null
     * @param valueTerm what the value matches, or null
     * @param orFields whether one match will do
     * @param matchSubstring whether a part of the text may match
     */
    public static void setRegexs(
            IteratorSetting setting,
            String rowTerm,
            String cfTerm,
            String cqTerm,
            String valueTerm,
            boolean orFields,
            boolean matchSubstring) {
        option(setting, ROW, rowTerm);
        option(setting, FAMILY, cfTerm);
        option(setting, QUALIFIER, cqTerm);
        option(setting, VALUE, valueTerm);
        setting.addOption(OR_FIELDS, Boolean.toString(orFields));
        setting.addOption(MATCH_SUBSTRING, Boolean.toString(matchSubstring));
    }

    private static void option(IteratorSetting setting, String option, String term) {
        if (term != null) {
            setting.addOption(option, term);
        }
    }
}
