import java.util.Map;
import org.apache.accumulo.core.client.Accumulo;
import org.apache.accumulo.core.client.AccumuloClient;
import org.apache.accumulo.core.client.BatchWriter;
import org.apache.accumulo.core.client.BatchWriterConfig;
import org.apache.accumulo.core.client.Scanner;
import org.apache.accumulo.core.data.Key;
import org.apache.accumulo.core.data.Mutation;
import org.apache.accumulo.core.data.Value;
import org.apache.accumulo.core.security.Authorizations;
import org.apache.accumulo.core.security.ColumnVisibility;
import org.apache.hadoop.io.Text;

/** Mutations, labels and a batch writer, as Accumulo's manual shows them. */
public class Writing {
    public static void main(String[] args) throws Exception {
        try (AccumuloClient client = Accumulo.newClient().from(args[0]).build()) {
            client.tableOperations().create("mytable");
            client.securityOperations().changeUserAuthorizations(client.whoami(), new Authorizations("public"));

            Text rowID = new Text("row1");
            Text colFam = new Text("myColFam");
            Text colQual = new Text("myColQual");
            ColumnVisibility colVis = new ColumnVisibility("public");
            long timestamp = 1234;
            Value value = new Value("myValue".getBytes());

            Mutation mutation = new Mutation(rowID);
            mutation.put(colFam, colQual, colVis, timestamp, value);

            // BatchWriterConfig has reasonable defaults
            BatchWriterConfig config = new BatchWriterConfig();
            config.setMaxMemory(10000000L); // bytes available to batchwriter for buffering mutations

            try (BatchWriter writer = client.createBatchWriter("mytable", config)) {
                writer.addMutation(mutation);
                Mutation fluent = new Mutation("row2");
                fluent.at().family("myColFam").qualifier("other").timestamp(5).put("seen by all");
                writer.addMutation(fluent);
            }
            for (Authorizations auths : new Authorizations[] {new Authorizations("public"), Authorizations.EMPTY}) {
                System.out.println("under [" + auths + "]");
                try (Scanner scan = client.createScanner("mytable", auths)) {
                    for (Map.Entry<Key, Value> entry : scan) {
                        System.out.println(entry.getKey() + " -> " + entry.getValue());
                    }
                }
            }
        }
    }
}
