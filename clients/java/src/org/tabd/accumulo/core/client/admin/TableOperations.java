package org.tabd.accumulo.core.client.admin;

import java.util.Collection;
import java.util.EnumSet;
import java.util.List;
import java.util.Map;
import java.util.Set;
import java.util.SortedSet;
import org.tabd.accumulo.core.client.AccumuloException;
import org.tabd.accumulo.core.client.AccumuloSecurityException;
import org.tabd.accumulo.core.client.IteratorSetting;
import org.tabd.accumulo.core.client.TableExistsException;
import org.tabd.accumulo.core.client.TableNotFoundException;
import org.tabd.accumulo.core.data.Range;
import org.tabd.accumulo.core.security.Authorizations;
import org.tabd.hadoop.io.Text;
import org.tabd.protocol.Constraint;
import org.tabd.protocol.Status;

/**
 * What is asked of tables. Many threads may use it at once.
 *
 * <p>A table's name is 1 to 128 of {@code a-z A-Z 0-9 _ - .}; any other one is an {@link IllegalArgumentException}.
 */
public interface TableOperations {
    /**
     * Makes a table.
     *
     * @param tableName its name
     * @throws AccumuloException if the server can't be asked
     * @throws AccumuloSecurityException if the user isn't allowed to
     * @throws TableExistsException if there is such a table already
     */
    default void create(String tableName) throws AccumuloException, AccumuloSecurityException, TableExistsException {
        create(tableName, new NewTableConfiguration());
    }

    /**
     * Makes a table. Where its splits can't be made any more it stays without them.
     *
     * @param tableName its name
     * @param configuration how it is made
     * @throws AccumuloException if the server can't be asked
     * @throws AccumuloSecurityException if the user isn't allowed to
     * @throws TableExistsException if there is such a table already
     */
    void create(String tableName, NewTableConfiguration configuration)
            throws AccumuloException, AccumuloSecurityException, TableExistsException;

    /**
     * Drops a table, its cells and all rights on it.
     *
     * @param tableName its name
     * @throws AccumuloException if the server can't be asked
     * @throws AccumuloSecurityException if the user isn't allowed to
     * @throws TableNotFoundException if there is no such table
     */
    void delete(String tableName) throws AccumuloException, AccumuloSecurityException, TableNotFoundException;

    /**
     * Whether there is a table.
     *
     * @param tableName its name
     * @return whether there is; a {@link RuntimeException} if the server can't be asked
     */
    boolean exists(String tableName);

    /**
     * Splits tablets at rows. One that is an end row already stays so.
     *
     * @param tableName the table
     * @param partitionKeys the rows
     * @throws AccumuloException if the server can't be asked
     * @throws AccumuloSecurityException if the user isn't allowed to
     * @throws TableNotFoundException if there is no such table
     */
    void addSplits(String tableName, SortedSet<Text> partitionKeys)
            throws AccumuloException, AccumuloSecurityException, TableNotFoundException;

    /**
     * At which rows a table is split.
     *
     * @param tableName the table
     * @return the rows, rising
     * @throws AccumuloException if the server can't be asked
     * @throws AccumuloSecurityException if the user isn't allowed to
     * @throws TableNotFoundException if there is no such table
     */
    Collection<Text> listSplits(String tableName) throws AccumuloException, AccumuloSecurityException, TableNotFoundException;

    /**
     * At which rows a table is split: at most so many of them, evenly chosen.
     *
     * @param tableName the table
     * @param maxSplits the count
     * @return the rows, rising
     * @throws AccumuloException if the server can't be asked
     * @throws AccumuloSecurityException if the user isn't allowed to
     * @throws TableNotFoundException if there is no such table
     */
    Collection<Text> listSplits(String tableName, int maxSplits)
            throws AccumuloException, AccumuloSecurityException, TableNotFoundException;

    /**
     * Makes sorted tables of what is in memory.
     *
     * @param tableName the table
     * @throws AccumuloException if the server can't be asked
     * @throws AccumuloSecurityException if the user isn't allowed to
     * @throws TableNotFoundException if there is no such table
     */
    void flush(String tableName) throws AccumuloException, AccumuloSecurityException, TableNotFoundException;

    /**
     * Makes sorted tables of what is in memory.
     *
     * @param tableName the table
     * @param start ignored: it is done for the whole table
     * @param end ignored
     * @param wait whether it is waited for
     * @throws AccumuloException if the server can't be asked
     * @throws AccumuloSecurityException if the user isn't allowed to
     * @throws TableNotFoundException if there is no such table
     */
    default void flush(String tableName, Text start, Text end, boolean wait)
            throws AccumuloException, AccumuloSecurityException, TableNotFoundException {
        flush(tableName);
    }

    /**
     * Merges all that each tablet holds.
     *
     * @param tableName the table
     * @param start ignored: it is done for the whole table
     * @param end ignored
     * @param flush ignored: what is in memory is merged too
     * @param wait ignored: it is done behind this
     * @throws AccumuloException if the server can't be asked
     * @throws AccumuloSecurityException if the user isn't allowed to
     * @throws TableNotFoundException if there is no such table
     */
    void compact(String tableName, Text start, Text end, boolean flush, boolean wait)
            throws AccumuloException, AccumuloSecurityException, TableNotFoundException;

    /**
     * Merges all that each tablet holds.
     *
     * @param tableName the table
     * @param config ignored: it is done for the whole table, and behind this
     * @throws AccumuloException if the server can't be asked
     * @throws AccumuloSecurityException if the user isn't allowed to
     * @throws TableNotFoundException if there is no such table
     */
    default void compact(String tableName, CompactionConfig config)
            throws AccumuloException, AccumuloSecurityException, TableNotFoundException {
        compact(tableName, config.getStartRow(), config.getEndRow(), config.getFlush(), config.getWait());
    }

    // ---- What Accumulo doesn't have.

    /**
     * Sets the constraints of a table in place of those that it has. Accumulo adds and removes them one by one.
     *
     * @param tableName the table
     * @param constraints the constraints
     * @throws AccumuloException if the server can't be asked
     * @throws AccumuloSecurityException if the user isn't allowed to
     * @throws TableNotFoundException if there is no such table
     */
    void setConstraints(String tableName, Set<Constraint> constraints)
            throws AccumuloException, AccumuloSecurityException, TableNotFoundException;

    /**
     * Lowers how many versions of a column a table shows.
     *
     * @param tableName the table
     * @param versions the count, 1 to 1,000
     * @throws AccumuloException if it shows fewer, or the server can't be asked
     * @throws AccumuloSecurityException if the user isn't allowed to
     * @throws TableNotFoundException if there is no such table
     */
    void setVersions(String tableName, int versions) throws AccumuloException, AccumuloSecurityException, TableNotFoundException;

    /**
     * Raises the horizon of a table: no update below it is taken from then on, and compactions drop the markers below it.
     *
     * @param tableName the table
     * @param horizon the least time that is taken
     * @throws AccumuloException if the table's is higher, or it gives the times, or the server can't be asked
     * @throws AccumuloSecurityException if the user isn't allowed to
     * @throws TableNotFoundException if there is no such table
     */
    void setHorizon(String tableName, long horizon) throws AccumuloException, AccumuloSecurityException, TableNotFoundException;

    /**
     * Counts what a table consists of.
     *
     * @param tableName the table
     * @return the counts
     * @throws AccumuloException if the server can't be asked
     * @throws AccumuloSecurityException if the user isn't allowed to
     * @throws TableNotFoundException if there is no such table
     */
    Status status(String tableName) throws AccumuloException, AccumuloSecurityException, TableNotFoundException;

    // ---- What a server doesn't have.

    /**
     * Isn't there: no request lists tables.
     *
     * @return never
     * @throws UnsupportedOperationException always
     */
    default SortedSet<String> list() {
        throw new UnsupportedOperationException("list: no request lists tables");
    }

    /**
     * Isn't there: no request lists tables, and they have no ids.
     *
     * @return never
     * @throws UnsupportedOperationException always
     */
    default Map<String, String> tableIdMap() {
        throw new UnsupportedOperationException("tableIdMap: no request lists tables, and they have no ids");
    }

    /**
     * Isn't there: a table keeps its name.
     *
     * @param oldTableName isn't looked at
     * @param newTableName isn't looked at
     * @throws UnsupportedOperationException always
     */
    default void rename(String oldTableName, String newTableName) {
        throw new UnsupportedOperationException("rename: a table keeps its name");
    }

    /**
     * Isn't there: a server copies no tables.
     *
     * @param srcTableName isn't looked at
     * @param newTableName isn't looked at
     * @param flush isn't looked at
     * @param propertiesToSet isn't looked at
     * @param propertiesToExclude isn't looked at
     * @throws UnsupportedOperationException always
     */
    default void clone(
            String srcTableName, String newTableName, boolean flush, Map<String, String> propertiesToSet, Set<String> propertiesToExclude) {
        throw new UnsupportedOperationException("clone: a server copies no tables");
    }

    /**
     * Isn't there: tablets aren't merged.
     *
     * @param tableName isn't looked at
     * @param start isn't looked at
     * @param end isn't looked at
     * @throws UnsupportedOperationException always
     */
    default void merge(String tableName, Text start, Text end) {
        throw new UnsupportedOperationException("merge: tablets aren't merged");
    }

    /**
     * Isn't there: a server deletes no ranges; scan, and write deletes.
     *
     * @param tableName isn't looked at
     * @param start isn't looked at
     * @param end isn't looked at
     * @throws UnsupportedOperationException always
     */
    default void deleteRows(String tableName, Text start, Text end) {
        throw new UnsupportedOperationException("deleteRows: a server deletes no ranges; scan, and write deletes");
    }

    /**
     * Isn't there: a server scans upwards alone.
     *
     * @param tableName isn't looked at
     * @param authorizations isn't looked at
     * @param startRow isn't looked at
     * @param startInclusive isn't looked at
     * @param endRow isn't looked at
     * @param endInclusive isn't looked at
     * @return never
     * @throws UnsupportedOperationException always
     */
    default Text getMaxRow(
            String tableName, Authorizations authorizations, Text startRow, boolean startInclusive, Text endRow, boolean endInclusive) {
        throw new UnsupportedOperationException("getMaxRow: a server scans upwards alone");
    }

    /**
     * Isn't there: files aren't imported; write what they hold.
     *
     * @param tableName isn't looked at
     * @param directory isn't looked at
     * @param failureDirectory isn't looked at
     * @param setTime isn't looked at
     * @throws UnsupportedOperationException always
     */
    default void importDirectory(String tableName, String directory, String failureDirectory, boolean setTime) {
        throw new UnsupportedOperationException("importDirectory: files aren't imported; write what they hold");
    }

    /**
     * Isn't there: a table is always online.
     *
     * @param tableName isn't looked at
     * @throws UnsupportedOperationException always
     */
    default void offline(String tableName) {
        throw new UnsupportedOperationException("offline: a table is always online");
    }

    /**
     * Isn't there: a table is always online.
     *
     * @param tableName isn't looked at
     * @throws UnsupportedOperationException always
     */
    default void online(String tableName) {
        throw new UnsupportedOperationException("online: a table is always online");
    }

    /**
     * Isn't there: a server has no properties; see NewTableConfiguration, setVersions, setHorizon and setConstraints.
     *
     * @param tableName isn't looked at
     * @param property isn't looked at
     * @param value isn't looked at
     * @throws UnsupportedOperationException always
     */
    default void setProperty(String tableName, String property, String value) {
        throw new UnsupportedOperationException(
                "setProperty: a server has no properties; see NewTableConfiguration, setVersions, setHorizon and setConstraints");
    }

    /**
     * Isn't there: a server has no properties; see NewTableConfiguration, setVersions, setHorizon and setConstraints.
     *
     * @param tableName isn't looked at
     * @param property isn't looked at
     * @throws UnsupportedOperationException always
     */
    default void removeProperty(String tableName, String property) {
        throw new UnsupportedOperationException(
                "removeProperty: a server has no properties; see NewTableConfiguration, setVersions, setHorizon and setConstraints");
    }

    /**
     * Isn't there: a server has no properties; see NewTableConfiguration, setVersions, setHorizon and setConstraints.
     *
     * @param tableName isn't looked at
     * @return never
     * @throws UnsupportedOperationException always
     */
    default Iterable<Map.Entry<String, String>> getProperties(String tableName) {
        throw new UnsupportedOperationException(
                "getProperties: a server has no properties; see NewTableConfiguration, setVersions, setHorizon and setConstraints");
    }

    /**
     * Isn't there: no request tells which constraints a table has; setConstraints sets all of them.
     *
     * @param tableName isn't looked at
     * @param constraintClassName isn't looked at
     * @return never
     * @throws UnsupportedOperationException always
     */
    default int addConstraint(String tableName, String constraintClassName) {
        throw new UnsupportedOperationException(
                "addConstraint: no request tells which constraints a table has; setConstraints sets all of them");
    }

    /**
     * Isn't there: no request tells which constraints a table has; setConstraints sets all of them.
     *
     * @param tableName isn't looked at
     * @param number isn't looked at
     * @throws UnsupportedOperationException always
     */
    default void removeConstraint(String tableName, int number) {
        throw new UnsupportedOperationException(
                "removeConstraint: no request tells which constraints a table has; setConstraints sets all of them");
    }

    /**
     * Isn't there: no request tells which constraints a table has.
     *
     * @param tableName isn't looked at
     * @return never
     * @throws UnsupportedOperationException always
     */
    default Map<String, Integer> listConstraints(String tableName) {
        throw new UnsupportedOperationException("listConstraints: no request tells which constraints a table has");
    }

    /**
     * Isn't there: a server runs no iterators but those that it always runs: versions, deletes and labels.
     *
     * @param tableName isn't looked at
     * @param setting isn't looked at
     * @throws UnsupportedOperationException always
     */
    default void attachIterator(String tableName, IteratorSetting setting) {
        throw new UnsupportedOperationException(
                "attachIterator: a server runs no iterators but those that it always runs: versions, deletes and labels");
    }

    /**
     * Isn't there: a server runs no iterators but those that it always runs: versions, deletes and labels.
     *
     * @param tableName isn't looked at
     * @param name isn't looked at
     * @param scopes isn't looked at
     * @throws UnsupportedOperationException always
     */
    default void removeIterator(String tableName, String name, EnumSet<?> scopes) {
        throw new UnsupportedOperationException(
                "removeIterator: a server runs no iterators but those that it always runs: versions, deletes and labels");
    }

    /**
     * Isn't there: a server runs no iterators but those that it always runs: versions, deletes and labels.
     *
     * @param tableName isn't looked at
     * @return never
     * @throws UnsupportedOperationException always
     */
    default Map<String, EnumSet<?>> listIterators(String tableName) {
        throw new UnsupportedOperationException(
                "listIterators: a server runs no iterators but those that it always runs: versions, deletes and labels");
    }

    /**
     * Isn't there: a server keeps all columns of a table together.
     *
     * @param tableName isn't looked at
     * @param groups isn't looked at
     * @throws UnsupportedOperationException always
     */
    default void setLocalityGroups(String tableName, Map<String, Set<Text>> groups) {
        throw new UnsupportedOperationException("setLocalityGroups: a server keeps all columns of a table together");
    }

    /**
     * Isn't there: a server keeps all columns of a table together.
     *
     * @param tableName isn't looked at
     * @return never
     * @throws UnsupportedOperationException always
     */
    default Map<String, Set<Text>> getLocalityGroups(String tableName) {
        throw new UnsupportedOperationException("getLocalityGroups: a server keeps all columns of a table together");
    }

    /**
     * Isn't there: one process has all tablets; see listSplits.
     *
     * @param tableName isn't looked at
     * @param range isn't looked at
     * @param maxSplits isn't looked at
     * @return never
     * @throws UnsupportedOperationException always
     */
    default Set<Range> splitRangeByTablets(String tableName, Range range, int maxSplits) {
        throw new UnsupportedOperationException("splitRangeByTablets: one process has all tablets; see listSplits");
    }

    /**
     * Isn't there: no request tells it; see status.
     *
     * @param tables isn't looked at
     * @return never
     * @throws UnsupportedOperationException always
     */
    default List<String> getDiskUsage(Set<String> tables) {
        throw new UnsupportedOperationException("getDiskUsage: no request tells it; see status");
    }
}
