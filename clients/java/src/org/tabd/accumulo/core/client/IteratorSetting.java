package org.tabd.accumulo.core.client;

import java.util.HashMap;
import java.util.Map;
import java.util.Objects;
import org.tabd.hadoop.io.Text;

/** An iterator by its class, with a name, a priority and options. */
public class IteratorSetting {
    private final Map<String, String> options = new HashMap<>();
    private final String iteratorClass;
    private int priority;
    private String name;

    /** A family, or a column. */
    public static class Column {
        private final Text family;
        private final Text qualifier;

        /**
         * A column.
         *
         * @param family the family
         * @param qualifier the qualifier
         */
        public Column(Text family, Text qualifier) {
            this.family = family;
            this.qualifier = qualifier;
        }

        /**
         * A family.
         *
         * @param family the family
         */
        public Column(Text family) {
            this(family, null);
        }

        /**
         * A column.
         *
         * @param family the family, as UTF-8
         * @param qualifier the qualifier, as UTF-8
         */
        public Column(String family, String qualifier) {
            this(new Text(family), new Text(qualifier));
        }

        /**
         * A family.
         *
         * @param family the family, as UTF-8
         */
        public Column(String family) {
            this(new Text(family));
        }

        /**
         * The family.
         *
         * @return the family
         */
        public Text getColumnFamily() {
            return family;
        }

        /**
         * The qualifier.
         *
         * @return the qualifier, or null for all of the family
         */
        public Text getColumnQualifier() {
            return qualifier;
        }
    }

    /**
     * An iterator.
     *
     * @param priority its place among others
     * @param name its name
     * @param iteratorClass its class
     * @param properties its options
     */
    public IteratorSetting(int priority, String name, String iteratorClass, Map<String, String> properties) {
        this.iteratorClass = Objects.requireNonNull(iteratorClass);
        setPriority(priority);
        setName(name);
        addOptions(properties);
    }

    /**
     * An iterator without options.
     *
     * @param priority its place among others
     * @param name its name
     * @param iteratorClass its class
     */
    public IteratorSetting(int priority, String name, String iteratorClass) {
        this(priority, name, iteratorClass, Map.of());
    }

    /**
     * An iterator without options.
     *
     * @param priority its place among others
     * @param name its name
     * @param iteratorClass its class
     */
    public IteratorSetting(int priority, String name, Class<?> iteratorClass) {
        this(priority, name, iteratorClass.getName());
    }

    /**
     * An iterator without options, which has the name of its class.
     *
     * @param priority its place among others
     * @param iteratorClass its class
     */
    public IteratorSetting(int priority, Class<?> iteratorClass) {
        this(priority, iteratorClass.getSimpleName(), iteratorClass);
    }

    /**
     * Its place among others.
     *
     * @return the priority
     */
    public int getPriority() {
        return priority;
    }

    /**
     * Changes its place among others.
     *
     * @param priority the priority, above 0
     */
    public final void setPriority(int priority) {
        if (priority <= 0) {
            throw new IllegalArgumentException("property must be strictly positive");
        }
        this.priority = priority;
    }

    /**
     * Its name.
     *
     * @return the name
     */
    public String getName() {
        return name;
    }

    /**
     * Changes its name.
     *
     * @param name the name
     */
    public final void setName(String name) {
        this.name = Objects.requireNonNull(name);
    }

    /**
     * Its class.
     *
     * @return the name of the class
     */
    public String getIteratorClass() {
        return iteratorClass;
    }

    /**
     * Its options.
     *
     * @return a copy
     */
    public Map<String, String> getOptions() {
        return Map.copyOf(options);
    }

    /**
     * Sets an option.
     *
     * @param option the option
     * @param value its value
     */
    public final void addOption(String option, String value) {
        options.put(Objects.requireNonNull(option), Objects.requireNonNull(value));
    }

    /**
     * Sets options.
     *
     * @param properties the options
     */
    public final void addOptions(Map<String, String> properties) {
        properties.forEach(this::addOption);
    }

    /**
     * Takes an option away.
     *
     * @param option the option
     * @return its value, or null if it wasn't set
     */
    public String removeOption(String option) {
        return options.remove(option);
    }

    /** Takes all options away. */
    public void clearOptions() {
        options.clear();
    }

    @Override
    public String toString() {
        return "name:" + name + ", priority:" + priority + ", class:" + iteratorClass + ", properties:" + options;
    }
}
