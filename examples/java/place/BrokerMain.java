package place;

import java.io.File;
import org.apache.activemq.broker.BrokerService;
import org.apache.activemq.store.kahadb.KahaDBPersistenceAdapter;

/** An ActiveMQ broker with a store in a folder, on loopback: {@code BrokerMain FOLDER PORT}. */
public final class BrokerMain {
    private BrokerMain() { }

    /** Runs until it is killed. */
    public static void main(final String[] words) throws Exception {
        final BrokerService broker = new BrokerService();
        broker.setBrokerName("demo");
        broker.setUseJmx(false);
        broker.setAdvisorySupport(false);
        broker.setDataDirectory(words[0]);
        final KahaDBPersistenceAdapter store = new KahaDBPersistenceAdapter();
        store.setDirectory(new File(words[0], "kahadb"));
        store.setJournalDiskSyncStrategy("always");
        broker.setPersistenceAdapter(store);
        broker.addConnector("tcp://127.0.0.1:" + words[1] + "?transport.tcpNoDelay=true");
        broker.start();
        broker.waitUntilStarted();
        broker.waitUntilStopped();
    }
}
