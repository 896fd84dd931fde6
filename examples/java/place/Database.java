package place;

import java.sql.Connection;
import java.sql.DriverManager;
import java.sql.ResultSet;
import java.sql.SQLException;
import java.sql.Statement;
import javax.sql.XADataSource;

/** A database with accounts. */
public interface Database {
    /** What an account has at first. */
    int FIRST = 1000;

    /** Its driver's source of XA connections. */
    XADataSource source();

    /** Its address for JDBC. */
    String url();

    /** The class of its driver's source of XA connections. */
    String driver();

    /** Its port, on loopback. */
    int port();

    /** Whether an exception says that another transaction holds a row. */
    boolean isLocked(SQLException error);

    /** A plain connection. */
    default Connection connect() throws SQLException {
        return DriverManager.getConnection(url());
    }

    /** Whether it takes connections. */
    default boolean isServing() {
        try (Connection connection = connect()) {
            return connection.isValid(1);
        } catch (SQLException error) {
            return false;
        }
    }

    /** Makes accounts, from 0. */
    default void makeAccounts(final int count) throws SQLException {
        try (Connection connection = connect(); Statement statement = connection.createStatement()) {
            statement.execute("CREATE TABLE account (number int PRIMARY KEY, balance int NOT NULL)");
            for (int number = 0; number < count; number++) {
                statement.execute("INSERT INTO account VALUES (" + number + ", " + FIRST + ")");
            }
        }
    }

    /** What one account has. */
    default int balance(final int number) throws SQLException {
        return ask("SELECT balance FROM account WHERE number = " + number);
    }

    /** What all accounts have together. */
    default int sum() throws SQLException {
        return ask("SELECT sum(balance) FROM account");
    }

    private int ask(final String query) throws SQLException {
        try (Connection connection = connect(); Statement statement = connection.createStatement();
                ResultSet rows = statement.executeQuery(query)) {
            rows.next();
            return rows.getInt(1);
        }
    }
}
