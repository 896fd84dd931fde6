import java.nio.file.Files;
import java.nio.file.Path;
import java.sql.PreparedStatement;
import java.sql.SQLException;
import javax.jms.JMSException;
import javax.jms.MessageProducer;
import javax.jms.XASession;
import javax.sql.XAConnection;
import javax.transaction.HeuristicMixedException;
import javax.transaction.HeuristicRollbackException;
import javax.transaction.NotSupportedException;
import javax.transaction.RollbackException;
import javax.transaction.SystemException;
import org.apache.activemq.ActiveMQXAConnectionFactory;
import org.mariadb.jdbc.MariaDbDataSource;
import org.postgresql.xa.PGXADataSource;
import pcommit.client.Cluster;
import pcommit.client.ClusterFileException;
import pcommit.xa.CommitStep;
import pcommit.xa.PaxosTransactionManager;
import pcommit.xa.PrepareAnswer;

/**
 * An order: a debit at PostgreSQL, a credit at MariaDB and a message at ActiveMQ, in one transaction that pcommit decides.
 * {@code Order CLUSTER.toml POSTGRESQL-URL MARIADB-URL BROKER-URL [ACCOUNT AMOUNT]}. With {@code -Dstop=STEP} it stands still once a commit
 * has come to that step, until the file of {@code -Dgo=FILE} is there, so that somebody can kill it. An object of it is for one thread.
 */
public final class Order implements AutoCloseable {
    private final PaxosTransactionManager manager;
    private final XAConnection postgresql;
    private final XAConnection mariadb;
    private final PreparedStatement debit;
    private final PreparedStatement credit;
    private final javax.jms.XAConnection broker;
    private final XASession session;
    private final MessageProducer orders;

    /** Connects to all three. */
    public Order(final PaxosTransactionManager manager, final String postgresqlUrl, final String mariadbUrl, final String brokerUrl)
            throws SQLException, JMSException {
        this.manager = manager;
        final PGXADataSource source = new PGXADataSource();
        source.setUrl(postgresqlUrl);
        postgresql = source.getXAConnection();
        mariadb = new MariaDbDataSource(mariadbUrl).getXAConnection();
        // both connections are kept: MariaDB's driver rolls back where one is closed, which it can't within a branch
        debit = manager.watch(postgresql.getConnection()).prepareStatement("UPDATE account SET balance = balance - ? WHERE number = ?");
        credit = manager.watch(mariadb.getConnection()).prepareStatement("UPDATE account SET balance = balance + ? WHERE number = ?");
        final ActiveMQXAConnectionFactory factory = new ActiveMQXAConnectionFactory(brokerUrl);
        factory.setWatchTopicAdvisories(false);
        broker = factory.createXAConnection();
        session = broker.createXASession();
        orders = session.createProducer(session.createQueue("orders"));
    }

    /** Registers the three resource managers: r0, r1 and r2 of the cluster. PostgreSQL's driver isn't believed when it has prepared. */
    public static void register(final PaxosTransactionManager manager) {
        manager.register("bank", 0, PrepareAnswer.VERIFIED);
        manager.register("shop", 1, PrepareAnswer.TRUSTED);
        manager.register("orders", 2, PrepareAnswer.TRUSTED);
    }

    /** Takes an amount from an account at PostgreSQL, gives it to one at MariaDB, and sends a message of it. */
    public void place(final int account, final int amount, final String text) throws NotSupportedException, SystemException,
            RollbackException, HeuristicMixedException, HeuristicRollbackException, SQLException, JMSException {
        manager.begin();
        try {
            manager.enlist("bank", postgresql.getXAResource());
            manager.enlist("shop", mariadb.getXAResource());
            manager.enlist("orders", session.getXAResource());
            change(debit, account, amount);
            change(credit, account, amount);
            orders.send(session.createTextMessage(text));
        } catch (SQLException | JMSException | SystemException | RollbackException | RuntimeException error) {
            // whatever it is: else the rows stay locked
            manager.rollback();
            throw error;
        }
        manager.commit();
    }

    private static void change(final PreparedStatement statement, final int account, final int amount) throws SQLException {
        statement.setInt(1, amount);
        statement.setInt(2, account);
        statement.executeUpdate();
    }

    @Override
    public void close() throws SQLException, JMSException {
        try {
            postgresql.close();
        } finally {
            try {
                mariadb.close();
            } finally {
                broker.close();
            }
        }
    }

    /** Places one order. */
    public static void main(final String[] words) throws ClusterFileException, SQLException, JMSException, NotSupportedException,
            SystemException, RollbackException, HeuristicMixedException, HeuristicRollbackException {
        final int account = words.length > 4 ? Integer.parseInt(words[4]) : 0;
        final int amount = words.length > 5 ? Integer.parseInt(words[5]) : 10;
        try (Cluster cluster = new Cluster(Path.of(words[0])); PaxosTransactionManager manager = new PaxosTransactionManager(cluster)) {
            manager.onStep(Order::stopWhereWanted);
            register(manager);
            try (Order order = new Order(manager, words[1], words[2], words[3])) {
                order.place(account, amount, account + " " + amount);
                System.out.println("committed");
            }
        }
    }

    private static void stopWhereWanted(final CommitStep step) {
        System.out.println(step);
        if (step.name().equals(System.getProperty("stop"))) {
            final Path go = Path.of(System.getProperty("go", "/nowhere"));
            try {
                while (!Files.exists(go)) {
                    Thread.sleep(1);
                }
            } catch (InterruptedException error) {
                Thread.currentThread().interrupt();
            }
        }
    }
}
