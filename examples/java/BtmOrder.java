import bitronix.tm.BitronixTransactionManager;
import bitronix.tm.Configuration;
import bitronix.tm.TransactionManagerServices;
import bitronix.tm.resource.ehcache.EhCacheXAResourceProducer;
import bitronix.tm.resource.jdbc.PoolingDataSource;
import bitronix.tm.resource.jms.PoolingConnectionFactory;
import java.io.File;
import java.sql.Connection;
import java.sql.PreparedStatement;
import java.sql.SQLException;
import java.util.logging.Level;
import java.util.logging.Logger;
import javax.jms.JMSException;
import javax.jms.MessageProducer;
import javax.jms.Session;
import javax.transaction.HeuristicMixedException;
import javax.transaction.HeuristicRollbackException;
import javax.transaction.NotSupportedException;
import javax.transaction.RollbackException;
import javax.transaction.SystemException;
import javax.transaction.xa.XAResource;
import javax.transaction.xa.Xid;
import org.apache.activemq.ActiveMQXAConnectionFactory;
import org.apache.activemq.command.ActiveMQQueue;
import org.mariadb.jdbc.MariaDbDataSource;
import org.postgresql.xa.PGXADataSource;

/**
 * The same order with Bitronix (BTM), to compare. {@code BtmOrder FOLDER POSTGRESQL-URL MARIADB-URL BROKER-URL} only starts, and so
 * recovers; with {@code ACCOUNT AMOUNT} behind it places an order, and with {@code -Dstop=PREPARED} it stands still once all have
 * prepared.
 */
public final class BtmOrder implements AutoCloseable {
    // kept, as the levels of loggers that nobody holds are forgotten
    private static final Logger QUIET = Logger.getLogger("bitronix");
    private static final ActiveMQQueue QUEUE = new ActiveMQQueue("orders");

    private final PoolingDataSource bank;
    private final PoolingDataSource shop;
    private final PoolingConnectionFactory orders;
    private final BitronixTransactionManager manager;

    /** Makes the pools and starts BTM, whose log is in a folder and is synced. */
    public BtmOrder(final File folder, final int most, final String postgresqlUrl, final String mariadbUrl, final String brokerUrl) {
        QUIET.setLevel(Level.SEVERE);
        final Configuration configuration = TransactionManagerServices.getConfiguration();
        configuration.setLogPart1Filename(new File(folder, "1.tlog").getPath());
        configuration.setLogPart2Filename(new File(folder, "2.tlog").getPath());
        configuration.setServerId("order");
        configuration.setDisableJmx(true);
        bank = database("bank", PGXADataSource.class.getName(), postgresqlUrl, most);
        shop = database("shop", MariaDbDataSource.class.getName(), mariadbUrl, most);
        orders = new PoolingConnectionFactory();
        orders.setClassName(ActiveMQXAConnectionFactory.class.getName());
        orders.setUniqueName("orders");
        orders.setMinPoolSize(0);
        orders.setMaxPoolSize(most);
        orders.setCacheProducersConsumers(true);
        orders.getDriverProperties().put("brokerURL", brokerUrl);
        orders.getDriverProperties().put("watchTopicAdvisories", "false");
        orders.init();
        manager = TransactionManagerServices.getTransactionManager();
    }

    private static PoolingDataSource database(final String name, final String driver, final String url, final int most) {
        final PoolingDataSource pool = new PoolingDataSource();
        pool.setClassName(driver);
        pool.setUniqueName(name);
        pool.setMinPoolSize(0);
        pool.setMaxPoolSize(most);
        pool.setPreparedStatementCacheSize(8);
        pool.getDriverProperties().put("url", url);
        pool.init();
        return pool;
    }

    /** Takes an amount from an account at PostgreSQL, gives it to one at MariaDB, and sends a message of it. */
    public void place(final int account, final int amount, final String text, final XAResource last) throws NotSupportedException,
            SystemException, RollbackException, HeuristicMixedException, HeuristicRollbackException, SQLException, JMSException {
        manager.begin();
        try {
            add(bank, account, -amount);
            add(shop, account, amount);
            send(text);
            if (last != null) {
                manager.getCurrentTransaction().enlistResource(last);
            }
        } catch (SQLException | JMSException | SystemException | RollbackException error) {
            manager.rollback();
            throw error;
        }
        manager.commit();
    }

    private static void add(final PoolingDataSource database, final int account, final int amount) throws SQLException {
        try (Connection connection = database.getConnection();
                PreparedStatement statement = connection.prepareStatement("UPDATE account SET balance = balance + ? WHERE number = ?")) {
            statement.setInt(1, amount);
            statement.setInt(2, account);
            statement.executeUpdate();
        }
    }

    private void send(final String text) throws JMSException {
        final javax.jms.Connection connection = orders.createConnection();
        try {
            final Session session = connection.createSession(true, Session.AUTO_ACKNOWLEDGE);
            final MessageProducer producer = session.createProducer(QUEUE);
            producer.send(session.createTextMessage(text));
            producer.close();
            session.close();
        } finally {
            connection.close();
        }
    }

    @Override
    public void close() {
        manager.shutdown();
        bank.close();
        shop.close();
        orders.close();
    }

    /** Starts, and places an order where one is said. */
    public static void main(final String[] words) throws Exception {
        try (BtmOrder order = new BtmOrder(new File(words[0]), 4, words[1], words[2], words[3])) {
            System.out.println("started");
            if (words.length > 5) {
                final Last last = new Last();
                EhCacheXAResourceProducer.registerXAResource("last", last);
                order.place(Integer.parseInt(words[4]), Integer.parseInt(words[5]), words[4] + " " + words[5], last);
                System.out.println("committed");
            }
        }
    }

    /** A resource with no data, the last to be asked to prepare. */
    private static final class Last implements XAResource {
        @Override
        public int prepare(final Xid xid) {
            System.out.println("PREPARED");
            if ("PREPARED".equals(System.getProperty("stop"))) {
                try {
                    Thread.sleep(Long.MAX_VALUE);
                } catch (InterruptedException error) {
                    Thread.currentThread().interrupt();
                }
            }
            return XA_OK;
        }

        @Override
        public void start(final Xid xid, final int flags) { }

        @Override
        public void end(final Xid xid, final int flags) { }

        @Override
        public void commit(final Xid xid, final boolean isOnePhase) { }

        @Override
        public void rollback(final Xid xid) { }

        @Override
        public void forget(final Xid xid) { }

        @Override
        public Xid[] recover(final int flags) {
            return new Xid[0];
        }

        @Override
        public boolean isSameRM(final XAResource other) {
            return other == this;
        }

        @Override
        public int getTransactionTimeout() {
            return 0;
        }

        @Override
        public boolean setTransactionTimeout(final int seconds) {
            return false;
        }
    }
}
