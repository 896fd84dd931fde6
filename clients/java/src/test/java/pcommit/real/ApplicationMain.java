package pcommit.real;

import java.nio.file.Path;
import pcommit.client.Cluster;
import pcommit.xa.PaxosTransactionManager;

/** An application that dies at a step: {@code ApplicationMain CLUSTER.toml POSTGRESQL-URL MARIADB-URL BROKER-URL ACCOUNT STEP}. */
final class ApplicationMain {
    /** Its status when it died where it should. */
    static final int DIED = 9;

    private ApplicationMain() { }

    public static void main(final String[] words) throws Exception {
        final Step wanted = Step.valueOf(words[5]);
        try (Cluster cluster = new Cluster(Path.of(words[0])); PaxosTransactionManager manager = new PaxosTransactionManager(cluster)) {
            RealPlace.register(manager);
            try (SteppedOrder order = new SteppedOrder(manager, words[1], words[2], words[3], step -> {
                if (step == wanted) {
                    Runtime.getRuntime().halt(DIED);
                }
            })) {
                order.place(Integer.parseInt(words[4]), 10, words[4]);
            }
        }
    }
}
