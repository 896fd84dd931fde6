package pcommit.real;

import java.sql.PreparedStatement;
import java.sql.SQLException;
import javax.jms.JMSException;
import javax.jms.MessageProducer;
import javax.jms.XASession;
import javax.sql.XAConnection;
import javax.transaction.xa.XAResource;
import org.apache.activemq.ActiveMQXAConnectionFactory;
import org.mariadb.jdbc.MariaDbDataSource;
import org.postgresql.xa.PGXADataSource;
import pcommit.xa.PaxosTransactionManager;

/** Orders of one client over all three resources, as examples/java/Order.java places them. */
class RealOrder implements AutoCloseable {
    private final PaxosTransactionManager manager;
    private XAConnection bank;
    private XAConnection shop;
    private javax.jms.XAConnection broker;
    private final XASession session;
    private final MessageProducer orders;
    private final PreparedStatement debit;
    private final PreparedStatement credit;

    RealOrder(final PaxosTransactionManager manager, final String bankUrl, final String shopUrl, final String brokerUrl)
            throws SQLException, JMSException {
        this.manager = manager;
        try {
            final PGXADataSource source = new PGXADataSource();
            source.setUrl(bankUrl);
            bank = source.getXAConnection();
            shop = new MariaDbDataSource(shopUrl).getXAConnection();
            final ActiveMQXAConnectionFactory factory = new ActiveMQXAConnectionFactory(brokerUrl);
            factory.setWatchTopicAdvisories(false);
            broker = factory.createXAConnection();
            session = broker.createXASession();
            orders = session.createProducer(session.createQueue("orders"));
            debit = manager.watch(bank.getConnection()).prepareStatement("UPDATE account SET balance = balance - ? WHERE number = ?");
            credit = manager.watch(shop.getConnection()).prepareStatement("UPDATE account SET balance = balance + ? WHERE number = ?");
        } catch (SQLException | JMSException error) {
            close();
            throw error;
        }
    }

    /** Takes an amount from an account at PostgreSQL, gives it to one at MariaDB, and sends a message. */
    final void place(final int account, final int amount, final String text) throws Exception {
        manager.begin();
        try {
            manager.enlist("bank", enlisted("bank", bank.getXAResource()));
            manager.enlist("shop", enlisted("shop", shop.getXAResource()));
            manager.enlist("orders", enlisted("orders", session.getXAResource()));
            change(debit, account, amount);
            change(credit, account, amount);
            orders.send(session.createTextMessage(text));
            worked();
        } catch (Exception error) {
            manager.rollback();
            throw error;
        }
        manager.commit();
    }

    private static void change(final PreparedStatement statement, final int account, final int amount) throws SQLException {
        statement.setInt(1, amount);
        statement.setInt(2, account);
        statement.executeUpdate();
    }

    /** What is enlisted in a resource's place. */
    XAResource enlisted(final String name, final XAResource resource) {
        return resource;
    }

    /** All work is done, and the commit comes. */
    void worked() { }

    /** What an application does after a failure: its connections go, whether they can be closed well or not. */
    @Override
    public final void close() {
        closeAnyhow(bank == null ? () -> { } : bank::close);
        closeAnyhow(shop == null ? () -> { } : shop::close);
        closeAnyhow(broker == null ? () -> { } : broker::close);
    }

    private static void closeAnyhow(final AutoCloseable one) {
        try {
            one.close();
        } catch (Exception error) {
            System.out.println("not closed well: " + error.getMessage());
        }
    }
}
