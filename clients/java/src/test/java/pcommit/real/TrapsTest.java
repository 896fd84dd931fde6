package pcommit.real;

import static org.junit.jupiter.api.Assertions.assertEquals;
import static org.junit.jupiter.api.Assertions.assertFalse;
import static org.junit.jupiter.api.Assertions.assertThrows;
import static org.junit.jupiter.api.Assertions.assertTrue;

import java.nio.ByteBuffer;
import java.nio.file.Files;
import java.nio.file.Path;
import java.sql.Connection;
import java.sql.SQLException;
import java.sql.Statement;
import java.time.Duration;
import java.util.ArrayList;
import java.util.Arrays;
import java.util.List;
import javax.jms.JMSException;
import javax.jms.XASession;
import javax.sql.XAConnection;
import javax.transaction.RollbackException;
import javax.transaction.xa.XAException;
import javax.transaction.xa.XAResource;
import javax.transaction.xa.Xid;
import org.junit.jupiter.api.AfterEach;
import org.junit.jupiter.api.BeforeEach;
import org.junit.jupiter.api.Test;
import org.junit.jupiter.api.io.TempDir;
import pcommit.client.Cluster;
import pcommit.client.ClusterFile;
import pcommit.client.NodeName;
import pcommit.xa.PaxosTransactionManager;
import place.Database;

/** What PostgreSQL, MariaDB and ActiveMQ really do, and that nothing comes of it. */
final class TrapsTest {
    @TempDir
    private Path folder;
    private RealPlace real;
    private PaxosTransactionManager manager;
    private XAConnection bank;
    private XAConnection shop;
    private javax.jms.XAConnection broker;
    private XASession session;
    private int account;

    @BeforeEach
    void start() throws Exception {
        real = RealPlace.get();
        manager = new PaxosTransactionManager(real.cluster(), Duration.ofSeconds(5));
        RealPlace.register(manager);
        bank = real.place().postgresql().source().getXAConnection();
        shop = real.place().mariadb().source().getXAConnection();
        broker = real.place().broker().source().createXAConnection();
        session = broker.createXASession();
        account = RealPlace.newAccount();
    }

    @AfterEach
    void stop() throws SQLException, JMSException {
        real.stopResolvers();
        bank.close();
        shop.close();
        broker.close();
        manager.close();
    }

    private void begin() throws Exception {
        manager.begin();
        manager.enlist("bank", bank.getXAResource());
        manager.enlist("shop", shop.getXAResource());
    }

    private void add(final XAConnection database, final int amount) throws SQLException {
        run(database.getConnection(), "UPDATE account SET balance = balance + " + amount + " WHERE number = " + account);
    }

    private static void run(final Connection connection, final String words) throws SQLException {
        try (Statement statement = connection.createStatement()) {
            statement.execute(words);
        }
    }

    private void assertUntouched() throws SQLException {
        assertEquals(List.of(Database.FIRST, Database.FIRST),
                List.of(real.place().postgresql().balance(account), real.place().mariadb().balance(account)));
    }

    /** PostgreSQL's driver answers yes to the prepare then, with nothing prepared. */
    @Test
    void aStatementThatFailedAtPostgreSqlAndWasNotNoticed() throws Exception {
        begin();
        add(bank, -1);
        add(shop, 1);
        assertThrows(SQLException.class, () -> run(bank.getConnection(), "SELECT 1 / 0"));
        final var error = assertThrows(RollbackException.class, manager::commit);
        assertTrue(error.getMessage().contains("a statement has failed"), error.getMessage());
        assertUntouched();
        assertEquals(0, real.prepared());
    }

    /** MariaDB would commit the rest. */
    @Test
    void aStatementThatFailedOnAWatchedConnection() throws Exception {
        begin();
        add(bank, -1);
        add(shop, 1);
        final Connection watched = manager.watch(shop.getConnection());
        assertThrows(SQLException.class, () -> run(watched, "INSERT INTO account VALUES (" + account + ", 0)"));
        assertThrows(RollbackException.class, manager::commit);
        assertUntouched();
        assertEquals(0, real.prepared());
    }

    /** ActiveMQ answers XA_RDONLY, and a commit of it would be answered NOTA. */
    @Test
    void aSessionThatSentNothingTakesNoPart() throws Exception {
        begin();
        manager.enlist("orders", session.getXAResource());
        add(bank, -1);
        add(shop, 1);
        manager.commit();
        assertEquals(Database.FIRST + 1, real.place().mariadb().balance(account));
        assertEquals(0, real.prepared());
    }

    @Test
    void aTransactionThatOnlyReads() throws Exception {
        begin();
        run(bank.getConnection(), "SELECT 1");
        run(shop.getConnection(), "SELECT 1");
        manager.commit();
        assertEquals(0, real.prepared());
    }

    @Test
    void oneResourceAlone() throws Exception {
        manager.begin();
        manager.enlist("shop", shop.getXAResource());
        add(shop, 5);
        manager.commit();
        assertEquals(Database.FIRST + 5, real.place().mariadb().balance(account));
    }

    @Test
    void theSameConnectionsManyTimes() throws Exception {
        for (int turn = 0; turn < 20; turn++) {
            begin();
            manager.enlist("orders", session.getXAResource());
            add(bank, -1);
            add(shop, 1);
            session.createProducer(session.createQueue("orders")).send(session.createTextMessage("many"));
            if (turn % 4 == 3) {
                manager.rollback();
            } else {
                manager.commit();
            }
        }
        assertEquals(Database.FIRST - 15, real.place().postgresql().balance(account));
        assertEquals(Database.FIRST + 15, real.place().mariadb().balance(account));
        assertEquals(0, real.prepared());
    }

    /** While it is open, MariaDB answers NOTA to all others, though it lists the branch. */
    @Test
    void theConnectionThatPreparedAtMariaDbIsStillOpen() throws Exception {
        final Xid xid = leave();
        real.startResolvers();
        Thread.sleep(4000);
        assertTrue(isListed(real.open(1).resource(), xid), "nobody but its connection can end it");
        shop.close();
        real.untilNothingIsPrepared(5);
        assertUntouched();
    }

    /** Leaves a branch prepared at MariaDB, with its connection open, as an application does that hangs. */
    private Xid leave() throws Exception {
        final Thread application = new Thread(() -> {
            try {
                manager.onStep(step -> park());
                begin();
                add(bank, -1);
                add(shop, 1);
                manager.commit();
            } catch (Exception error) {
                // it is late, and is told so or is interrupted
                Thread.currentThread().interrupt();
            }
        });
        application.setDaemon(true);
        application.start();
        for (int turn = 0; turn < 500; turn++) {
            final Xid[] listed = real.open(1).resource().recover(XAResource.TMSTARTRSCAN | XAResource.TMENDRSCAN);
            if (listed.length > 0) {
                return listed[0];
            }
            Thread.sleep(10);
        }
        throw new AssertionError("nothing is prepared");
    }

    private static void park() {
        try {
            Thread.sleep(60_000);
        } catch (InterruptedException error) {
            Thread.currentThread().interrupt();
        }
    }

    private static boolean isListed(final XAResource resource, final Xid xid) throws XAException {
        return Arrays.stream(resource.recover(XAResource.TMSTARTRSCAN | XAResource.TMENDRSCAN))
                .anyMatch(other -> Arrays.equals(other.getGlobalTransactionId(), xid.getGlobalTransactionId()));
    }

    /** A name that isn't pcommit's. */
    private record Foreign(int number) implements Xid {
        @Override
        public int getFormatId() {
            return 7;
        }

        @Override
        public byte[] getGlobalTransactionId() {
            return ByteBuffer.allocate(16).putInt(number).array();
        }

        @Override
        public byte[] getBranchQualifier() {
            return new byte[] {'r', '0'};
        }
    }

    private static void prepare(final XAResource resource, final Xid xid, final Work work) throws Exception {
        resource.start(xid, XAResource.TMNOFLAGS);
        work.run();
        resource.end(xid, XAResource.TMSUCCESS);
        assertEquals(XAResource.XA_OK, resource.prepare(xid));
    }

    /** What is done in a branch. */
    private interface Work {
        void run() throws Exception;
    }

    @Test
    void nobodyElsesBranchesAreTouched() throws Exception {
        final Xid xid = new Foreign(1);
        prepare(bank.getXAResource(), xid, () -> add(bank, -1));
        prepare(shop.getXAResource(), xid, () -> add(shop, 1));
        prepare(session.getXAResource(), xid,
                () -> session.createProducer(session.createQueue("orders")).send(session.createTextMessage("foreign")));
        shop.close();
        real.startResolvers();
        Thread.sleep(4000);
        for (int number = 0; number < 3; number++) {
            try (var open = real.open(number)) {
                assertTrue(isListed(open.resource(), xid), "at r" + number);
                open.resource().rollback(xid);
            }
        }
        assertUntouched();
    }

    /** PostgreSQL has room for 200: one more prepare fails, and so does its rollback. */
    @Test
    void noRoomToPrepare() throws Exception {
        final List<Xid> foreign = new ArrayList<>();
        for (int number = 0; number < 200; number++) {
            final Xid xid = new Foreign(100 + number);
            prepare(bank.getXAResource(), xid, () -> run(bank.getConnection(), "SELECT 1"));
            foreign.add(xid);
        }
        begin();
        add(bank, -1);
        add(shop, 1);
        assertThrows(RollbackException.class, manager::commit);
        assertUntouched();
        for (final Xid xid : foreign) {
            bank.getXAResource().rollback(xid);
        }
        assertEquals(0, real.prepared());
        begin();
        add(bank, -1);
        add(shop, 1);
        manager.commit();
    }

    @Test
    void aManagerWithAnotherKey() throws Exception {
        for (final String name : List.of("cluster.toml", "nodes.key")) {
            Files.copy(real.place().nodes().file().resolveSibling(name), folder.resolve(name));
        }
        Files.writeString(folder.resolve("clients.key"), "ab".repeat(32) + "\n");
        final ClusterFile file = ClusterFile.read(folder.resolve("cluster.toml"));
        try (Cluster stranger = new Cluster(file, Duration.ofSeconds(1), Duration.ofSeconds(2));
                PaxosTransactionManager other = new PaxosTransactionManager(stranger)) {
            RealPlace.register(other);
            other.begin();
            other.enlist("bank", bank.getXAResource());
            other.enlist("shop", shop.getXAResource());
            add(bank, -1);
            add(shop, 1);
            assertThrows(RollbackException.class, other::commit);
        }
        assertUntouched();
        assertEquals(0, real.prepared());
    }

    /** Rows of participants don't pile up. */
    @Test
    void rowsOfEndedTransactionsGo() throws Exception {
        final int before = real.cluster().table(0).size();
        for (int turn = 0; turn < 10; turn++) {
            begin();
            add(bank, -1);
            add(shop, 1);
            manager.commit();
        }
        assertTrue(real.cluster().table(0).size() <= before + 1);
        assertFalse(real.cluster().openAt(NodeName.resourceManager(0)).size() > 1);
    }
}
