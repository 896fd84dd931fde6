package place;

import java.sql.Connection;
import java.sql.SQLException;
import java.sql.Statement;
import javax.jms.JMSException;
import javax.sql.XAConnection;
import javax.transaction.xa.XAException;

/** Another client: it looks whether rows are held, and what is prepared. Its connections stay open, so that a look is quick. */
public final class Watcher implements AutoCloseable {
    private final Place place;
    private final Connection bank;
    private final Connection shop;
    private final XAConnection first;
    private final XAConnection second;
    private final javax.jms.XAConnection third;
    private final javax.jms.XASession session;

    /** Connects to all three. */
    public Watcher(final Place place) throws SQLException, JMSException {
        this.place = place;
        bank = place.postgresql().connect();
        shop = place.mariadb().connect();
        first = place.postgresql().source().getXAConnection();
        second = place.mariadb().source().getXAConnection();
        third = place.broker().source().createXAConnection();
        session = third.createXASession();
    }

    /** Whether another transaction holds an account's row, at either database. */
    public boolean isHeld(final int account) throws SQLException {
        return isHeld(bank, place.postgresql(), account) || isHeld(shop, place.mariadb(), account);
    }

    private static boolean isHeld(final Connection connection, final Database database, final int account) throws SQLException {
        try (Statement statement = connection.createStatement()) {
            statement.executeQuery("SELECT balance FROM account WHERE number = " + account + " FOR UPDATE NOWAIT").close();
            return false;
        } catch (SQLException error) {
            if (database.isLocked(error)) {
                return true;
            }
            throw error;
        }
    }

    /** How many branches are prepared, whoever prepared them. */
    public Prepared prepared() throws SQLException, XAException {
        return new Prepared(Prepared.count(first.getXAResource()), Prepared.count(second.getXAResource()),
                Prepared.count(session.getXAResource()));
    }

    @Override
    public void close() throws SQLException, JMSException {
        try (bank; shop) {
            first.close();
            second.close();
        } finally {
            third.close();
        }
    }
}
