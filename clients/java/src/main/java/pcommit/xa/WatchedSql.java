package pcommit.xa;

import java.lang.reflect.InvocationHandler;
import java.lang.reflect.InvocationTargetException;
import java.lang.reflect.Method;
import java.lang.reflect.Proxy;
import java.sql.CallableStatement;
import java.sql.Connection;
import java.sql.PreparedStatement;
import java.sql.ResultSet;
import java.sql.SQLException;
import java.sql.Statement;
import java.util.List;
import java.util.function.Consumer;

/** Passes calls on to an object of JDBC, and tells of each SQLException that it throws; so of what it answers. */
final class WatchedSql implements InvocationHandler {
    private static final List<Class<?>> WATCHED = List.of(Connection.class, CallableStatement.class, PreparedStatement.class,
            Statement.class, ResultSet.class);

    private final Object watched;
    private final Consumer<SQLException> told;

    private WatchedSql(final Object watched, final Consumer<SQLException> told) {
        this.watched = watched;
        this.told = told;
    }

    static <T> T watch(final T watched, final Class<T> type, final Consumer<SQLException> told) {
        return type.cast(Proxy.newProxyInstance(WatchedSql.class.getClassLoader(), new Class<?>[] {type}, new WatchedSql(watched, told)));
    }

    @Override
    public Object invoke(final Object proxy, final Method method, final Object[] values) throws Throwable {
        if (method.getName().equals("equals") && method.getParameterCount() == 1) {
            return proxy == values[0];
        }
        try {
            return watchAnswer(method.invoke(watched, values), method.getReturnType());
        } catch (InvocationTargetException error) {
            if (error.getCause() instanceof SQLException failed) {
                told.accept(failed);
            }
            throw error.getCause();
        }
    }

    /** What a call answers, watched where its declared type is one that can fail. */
    private Object watchAnswer(final Object answer, final Class<?> type) {
        return answer != null && WATCHED.contains(type) ? watchAs(answer, type) : answer;
    }

    private <T> Object watchAs(final Object answer, final Class<T> type) {
        return watch(type.cast(answer), type, told);
    }
}
