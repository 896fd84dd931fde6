package pcommit.real;

import java.nio.file.Path;
import java.util.concurrent.TimeUnit;
import javax.transaction.HeuristicMixedException;
import javax.transaction.HeuristicRollbackException;
import pcommit.client.Cluster;
import pcommit.xa.OutcomeUnknownException;
import pcommit.xa.PaxosTransactionManager;

/**
 * Clients of a soak in one process, each with an account of its own: {@code SoakClient CLUSTER.toml POSTGRESQL-URL MARIADB-URL BROKER-URL
 * FIRST-ACCOUNT CLIENTS}. After whatever fails a client closes its connections and goes on with new ones. What each transaction came to it
 * says in a line.
 */
final class SoakClient {
    private SoakClient() { }

    public static void main(final String[] words) throws Exception {
        final int first = Integer.parseInt(words[4]);
        final int clients = Integer.parseInt(words[5]);
        final Cluster cluster = new Cluster(Path.of(words[0]));
        final PaxosTransactionManager manager = new PaxosTransactionManager(cluster);
        RealPlace.register(manager);
        for (int client = 0; client < clients; client++) {
            final int account = first + client;
            new Thread(() -> work(manager, account, words)).start();
        }
    }

    private static void work(final PaxosTransactionManager manager, final int account, final String[] words) {
        while (true) {
            try (RealOrder order = new RealOrder(manager, words[1], words[2], words[3])) {
                while (true) {
                    order.place(account, 1, "order");
                    System.out.println("committed");
                }
            } catch (OutcomeUnknownException error) {
                System.out.println("unknown: " + error.getMessage());
            } catch (HeuristicMixedException | HeuristicRollbackException error) {
                System.out.println("HEURISTIC: " + error.getMessage());
            } catch (Exception error) {
                System.out.println("failed: " + error.getMessage());
            }
            pause();
        }
    }

    private static void pause() {
        try {
            TimeUnit.MILLISECONDS.sleep(100);
        } catch (InterruptedException error) {
            Thread.currentThread().interrupt();
        }
    }
}
