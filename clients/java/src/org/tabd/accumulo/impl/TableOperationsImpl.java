package org.tabd.accumulo.impl;

import java.io.IOException;
import java.util.ArrayList;
import java.util.Collection;
import java.util.List;
import java.util.Set;
import java.util.SortedSet;
import org.tabd.accumulo.core.client.AccumuloException;
import org.tabd.accumulo.core.client.AccumuloSecurityException;
import org.tabd.accumulo.core.client.TableExistsException;
import org.tabd.accumulo.core.client.TableNotFoundException;
import org.tabd.accumulo.core.client.admin.NewTableConfiguration;
import org.tabd.accumulo.core.client.admin.TableOperations;
import org.tabd.hadoop.io.Text;
import org.tabd.protocol.Constraint;
import org.tabd.protocol.Refusal;
import org.tabd.protocol.RefusedException;
import org.tabd.protocol.Request;
import org.tabd.protocol.Status;

/** Operations on tables over a {@link Link}. */
final class TableOperationsImpl implements TableOperations {
    private final Link link;

    TableOperationsImpl(Link link) {
        this.link = link;
    }

    private <T> T ask(String table, Request<T> request) throws AccumuloException, AccumuloSecurityException, TableNotFoundException {
        return Faults.askOfTable(link, table, request);
    }

    private static boolean isRefused(Throwable fault, Class<? extends Refusal> kind) {
        return fault instanceof RefusedException refused && kind.isInstance(refused.refusal());
    }

    @Override
    public void create(String table, NewTableConfiguration configuration)
            throws AccumuloException, AccumuloSecurityException, TableExistsException {
        try {
            ask(table, Request.createTable(table, configuration.isServerTime(), configuration.getVersions()));
            addSplits(table, configuration.getSplits());
        } catch (TableNotFoundException gone) {
            throw new AccumuloException("the table was dropped before it was split", gone);
        } catch (AccumuloException fault) {
            if (isRefused(fault.getCause(), Refusal.TableExists.class)) {
                throw new TableExistsException(table, fault.getCause());
            }
            throw fault;
        }
    }

    @Override
    public void delete(String table) throws AccumuloException, AccumuloSecurityException, TableNotFoundException {
        ask(table, Request.dropTable(table));
    }

    @Override
    public boolean exists(String table) {
        try {
            link.ask(Request.rights(table));
            return true;
        } catch (RefusedException refused) {
            if (refused.refusal() instanceof Refusal.NoTable) {
                return false;
            }
            throw Faults.ofScan(link.user(), table, refused);
        } catch (IOException fault) {
            throw Faults.ofScan(fault);
        }
    }

    @Override
    public void addSplits(String table, SortedSet<Text> rows)
            throws AccumuloException, AccumuloSecurityException, TableNotFoundException {
        for (Text row : rows) {
            try {
                ask(table, Request.addSplit(table, row.copyBytes()));
            } catch (AccumuloException fault) {
                boolean present = fault.getCause() instanceof RefusedException refused
                        && refused.refusal().equals(new Refusal.BadSplit(Refusal.BadSplit.Why.PRESENT));
                if (!present) {
                    throw fault;
                }
            }
        }
    }

    @Override
    public Collection<Text> listSplits(String table) throws AccumuloException, AccumuloSecurityException, TableNotFoundException {
        return ask(table, Request.splits(table)).stream().map(Text::new).toList();
    }

    @Override
    public Collection<Text> listSplits(String table, int most)
            throws AccumuloException, AccumuloSecurityException, TableNotFoundException {
        List<Text> all = new ArrayList<>(listSplits(table));
        if (all.size() <= most) {
            return all;
        }
        List<Text> chosen = new ArrayList<>(most);
        for (long index = 1; index <= most; index++) {
            chosen.add(all.get((int) (index * (all.size() + 1L) / (most + 1L)) - 1));
        }
        return chosen;
    }

    @Override
    public void flush(String table) throws AccumuloException, AccumuloSecurityException, TableNotFoundException {
        ask(table, Request.flush(table));
    }

    @Override
    public void compact(String table, Text start, Text end, boolean flush, boolean wait)
            throws AccumuloException, AccumuloSecurityException, TableNotFoundException {
        ask(table, Request.compact(table, true));
    }

    @Override
    public void setConstraints(String table, Set<Constraint> constraints)
            throws AccumuloException, AccumuloSecurityException, TableNotFoundException {
        ask(table, Request.setConstraints(table, constraints));
    }

    @Override
    public void setVersions(String table, int versions) throws AccumuloException, AccumuloSecurityException, TableNotFoundException {
        ask(table, Request.setVersions(table, versions));
    }

    @Override
    public void setHorizon(String table, long horizon) throws AccumuloException, AccumuloSecurityException, TableNotFoundException {
        ask(table, Request.setHorizon(table, horizon));
    }

    @Override
    public Status status(String table) throws AccumuloException, AccumuloSecurityException, TableNotFoundException {
        return ask(table, Request.status(table));
    }
}
