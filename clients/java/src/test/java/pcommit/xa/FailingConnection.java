package pcommit.xa;

import java.lang.reflect.Proxy;
import java.sql.Connection;
import java.sql.PreparedStatement;
import java.sql.SQLException;

/** A connection whose statements fail. */
final class FailingConnection {
    Connection connection() {
        final PreparedStatement statement = make(PreparedStatement.class, null);
        return make(Connection.class, statement);
    }

    private static <T> T make(final Class<T> type, final Object answer) {
        return type.cast(Proxy.newProxyInstance(FailingConnection.class.getClassLoader(), new Class<?>[] {type}, (proxy, method,
                values) -> {
            if (answer == null) {
                throw new SQLException("a statement that fails");
            }
            return answer;
        }));
    }
}
