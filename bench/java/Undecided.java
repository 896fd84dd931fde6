import java.nio.ByteBuffer;
import java.sql.PreparedStatement;
import java.sql.SQLException;
import java.util.ArrayList;
import java.util.List;
import java.util.concurrent.Callable;
import java.util.concurrent.ExecutionException;
import java.util.concurrent.ExecutorService;
import java.util.concurrent.Executors;
import java.util.concurrent.Future;
import java.util.concurrent.atomic.AtomicLong;
import javax.jms.JMSException;
import javax.jms.MessageProducer;
import javax.jms.XASession;
import javax.sql.XAConnection;
import javax.transaction.xa.XAException;
import javax.transaction.xa.XAResource;
import javax.transaction.xa.Xid;
import org.apache.activemq.ActiveMQXAConnectionFactory;
import org.mariadb.jdbc.MariaDbDataSource;
import org.postgresql.xa.PGXADataSource;

/**
 * The same order with nobody who decides: all prepare at once, and then all commit at once. Where it is killed in between, nobody knows how
 * that ends. It shows what the three resources take alone.
 */
final class Undecided implements AutoCloseable {
    private static final AtomicLong NUMBERS = new AtomicLong(System.nanoTime());
    private final ExecutorService threads = Executors.newFixedThreadPool(3);
    private final XAConnection bank;
    private final XAConnection shop;
    private final javax.jms.XAConnection broker;
    private final XASession session;
    private final MessageProducer orders;
    private final PreparedStatement debit;
    private final PreparedStatement credit;

    Undecided(final String bankUrl, final String shopUrl, final String brokerUrl) throws SQLException, JMSException {
        final PGXADataSource source = new PGXADataSource();
        source.setUrl(bankUrl);
        bank = source.getXAConnection();
        shop = new MariaDbDataSource(shopUrl).getXAConnection();
        final ActiveMQXAConnectionFactory factory = new ActiveMQXAConnectionFactory(brokerUrl);
        factory.setWatchTopicAdvisories(false);
        broker = factory.createXAConnection();
        session = broker.createXASession();
        orders = session.createProducer(session.createQueue("orders"));
        debit = bank.getConnection().prepareStatement("UPDATE account SET balance = balance - ? WHERE number = ?");
        credit = shop.getConnection().prepareStatement("UPDATE account SET balance = balance + ? WHERE number = ?");
    }

    /** The name of a branch of nobody who would recover it. */
    private record Name(long number, byte place) implements Xid {
        @Override
        public int getFormatId() {
            return 1;
        }

        @Override
        public byte[] getGlobalTransactionId() {
            return ByteBuffer.allocate(Long.BYTES).putLong(number).array();
        }

        @Override
        public byte[] getBranchQualifier() {
            return new byte[] {place};
        }
    }

    /** A call of a resource. */
    private interface Call {
        void of(XAResource resource, Xid xid) throws XAException;
    }

    void place(final int account, final int amount, final String text) throws Exception {
        final List<XAResource> resources = List.of(bank.getXAResource(), shop.getXAResource(), session.getXAResource());
        final long number = NUMBERS.incrementAndGet();
        for (int place = 0; place < resources.size(); place++) {
            resources.get(place).start(new Name(number, (byte) place), XAResource.TMNOFLAGS);
        }
        change(debit, account, amount);
        change(credit, account, amount);
        orders.send(session.createTextMessage(text));
        all(resources, number, (resource, xid) -> {
            resource.end(xid, XAResource.TMSUCCESS);
            resource.prepare(xid);
        });
        all(resources, number, (resource, xid) -> resource.commit(xid, false));
    }

    private void all(final List<XAResource> resources, final long number, final Call call) throws InterruptedException, ExecutionException {
        final List<Callable<Void>> calls = new ArrayList<>();
        for (int place = 0; place < resources.size(); place++) {
            final XAResource resource = resources.get(place);
            final Name name = new Name(number, (byte) place);
            calls.add(() -> {
                call.of(resource, name);
                return null;
            });
        }
        for (final Future<Void> made : threads.invokeAll(calls)) {
            made.get();
        }
    }

    private static void change(final PreparedStatement statement, final int account, final int amount) throws SQLException {
        statement.setInt(1, amount);
        statement.setInt(2, account);
        statement.executeUpdate();
    }

    @Override
    public void close() throws SQLException, JMSException {
        threads.shutdown();
        bank.close();
        shop.close();
        broker.close();
    }
}
