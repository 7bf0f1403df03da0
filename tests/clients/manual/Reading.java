import java.util.ArrayList;
import java.util.Map.Entry;
import java.util.TreeSet;
import org.apache.accumulo.core.client.Accumulo;
import org.apache.accumulo.core.client.AccumuloClient;
import org.apache.accumulo.core.client.BatchScanner;
import org.apache.accumulo.core.client.BatchWriter;
import org.apache.accumulo.core.client.IteratorSetting;
import org.apache.accumulo.core.client.Scanner;
import org.apache.accumulo.core.data.Key;
import org.apache.accumulo.core.data.Mutation;
import org.apache.accumulo.core.data.Range;
import org.apache.accumulo.core.data.Value;
import org.apache.accumulo.core.iterators.user.RegExFilter;
import org.apache.accumulo.core.security.Authorizations;
import org.apache.hadoop.io.Text;

/** A scanner over a range and a batch scanner over many, as Accumulo's manual shows them. */
public class Reading {
    public static void main(String[] args) throws Exception {
        try (AccumuloClient client = Accumulo.newClient().from(args[0]).build()) {
            client.tableOperations().create("people");
            try (BatchWriter writer = client.createBatchWriter("people")) {
                for (String name : new String[] {"george", "harry", "ida", "jack", "john", "johnny", "kate"}) {
                    Mutation m = new Mutation(new Text(name));
                    m.put("attributes", "length", "" + name.length());
                    m.put("attributes", "initial", name.substring(0, 1));
                    m.put("other", "unread", "x");
                    writer.addMutation(m);
                }
            }
            // specify which visibilities we are allowed to see
            Authorizations auths = new Authorizations();
            try (Scanner scan = client.createScanner("people", auths)) {
                scan.setRange(new Range("harry", "john"));
                scan.fetchColumnFamily(new Text("attributes"));
                for (Entry<Key, Value> entry : scan) {
                    Text row = entry.getKey().getRow();
                    Value value = entry.getValue();
                    System.out.println(row + " " + entry.getKey().getColumnQualifier() + " " + value);
                }
                IteratorSetting setting = new IteratorSetting(100, "initials", RegExFilter.class);
                RegExFilter.setRegexs(setting, "j.*", null, "initial", null, false);
                scan.addScanIterator(setting);
                scan.forEach((key, value) -> System.out.println("filtered: " + key.getRow() + " " + value));
            }
            ArrayList<Range> ranges = new ArrayList<>();
            ranges.add(new Range("kate"));
            ranges.add(new Range("george"));
            ranges.add(Range.exact("ida", "attributes", "length"));
            TreeSet<String> found = new TreeSet<>();
            try (BatchScanner bscan = client.createBatchScanner("people", auths, 10)) {
                bscan.setRanges(ranges);
                bscan.fetchColumn(new Text("attributes"), new Text("length"));
                for (Entry<Key, Value> entry : bscan) {
                    found.add(entry.getKey().getRow() + " " + entry.getValue());
                }
            }
            System.out.println(found);
        }
    }
}
