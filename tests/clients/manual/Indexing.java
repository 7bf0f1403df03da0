import java.util.HashSet;
import java.util.Map.Entry;
import java.util.TreeSet;
import org.apache.accumulo.core.client.Accumulo;
import org.apache.accumulo.core.client.AccumuloClient;
import org.apache.accumulo.core.client.BatchScanner;
import org.apache.accumulo.core.client.BatchWriterConfig;
import org.apache.accumulo.core.client.MultiTableBatchWriter;
import org.apache.accumulo.core.client.MutationsRejectedException;
import org.apache.accumulo.core.client.Scanner;
import org.apache.accumulo.core.client.admin.NewTableConfiguration;
import org.apache.accumulo.core.data.Key;
import org.apache.accumulo.core.data.Mutation;
import org.apache.accumulo.core.data.Range;
import org.apache.accumulo.core.data.Value;
import org.apache.accumulo.core.security.Authorizations;
import org.apache.hadoop.io.Text;

/** Documents and an index of their words in another table, as in the chapter on table design of Accumulo's manual. */
public class Indexing {
    private static final Value EMPTY = new Value();

    public static void main(String[] args) throws Exception {
        String[] documents = {"the quick brown fox", "a lazy dog", "the dog and the fox", "nothing of the kind"};
        try (AccumuloClient client = Accumulo.newClient().from(args[0]).build()) {
            TreeSet<Text> splits = new TreeSet<>();
            splits.add(new Text("m"));
            client.tableOperations().create("documents");
            client.tableOperations().create("index", new NewTableConfiguration().withSplits(splits));
            System.out.println("splits " + client.tableOperations().listSplits("index"));
            ingest(client, documents);
            for (String term : new String[] {"fox", "dog", "the", "cat"}) {
                System.out.println(term + ": " + search(client, new Text(term)));
            }
        }
    }

    private static void ingest(AccumuloClient client, String[] documents) throws Exception {
        MultiTableBatchWriter writers = client.createMultiTableBatchWriter(new BatchWriterConfig());
        for (int id = 0; id < documents.length; id++) {
            Mutation document = new Mutation(String.format("%03d", id));
            document.put("attributes", "text", documents[id]);
            writers.getBatchWriter("documents").addMutation(document);
            for (String word : documents[id].split(" ")) {
                Mutation entry = new Mutation(word);
                entry.put(new Text("id"), new Text(String.format("%03d", id)), EMPTY);
                writers.getBatchWriter("index").addMutation(entry);
            }
        }
        try {
            writers.close();
        } catch (MutationsRejectedException e) {
            System.out.println(e.getConstraintViolationSummaries());
        }
    }

    private static TreeSet<String> search(AccumuloClient client, Text term) throws Exception {
        Authorizations auths = Authorizations.EMPTY;
        // first we scan the index for IDs of rows matching our query
        HashSet<Range> matchingRows = new HashSet<>();
        try (Scanner indexScanner = client.createScanner("index", auths)) {
            indexScanner.setRange(new Range(term, term));
            // we retrieve the matching rowIDs and create a set of ranges
            for (Entry<Key, Value> entry : indexScanner) {
                matchingRows.add(new Range(entry.getKey().getColumnQualifier()));
            }
        }
        TreeSet<String> found = new TreeSet<>();
        if (!matchingRows.isEmpty()) {
            // now we pass the set of rowIDs to the batch scanner to retrieve them
            try (BatchScanner bscan = client.createBatchScanner("documents", auths, 10)) {
                bscan.setRanges(matchingRows);
                bscan.fetchColumnFamily(new Text("attributes"));
                for (Entry<Key, Value> entry : bscan) {
                    found.add(entry.getValue().toString());
                }
            }
        }
        return found;
    }
}
