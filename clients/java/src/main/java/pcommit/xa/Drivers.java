package pcommit.xa;

import java.lang.reflect.InvocationTargetException;
import java.lang.reflect.Method;
import java.sql.SQLException;
import java.util.List;
import java.util.Locale;
import javax.jms.JMSException;
import javax.jms.XAConnectionFactory;
import javax.jms.XASession;
import javax.sql.XADataSource;
import javax.transaction.xa.XAResource;
import pcommit.xa.ResourceOpener.OpenResource;

/** Makes the driver's object that a class and its properties say. */
final class Drivers {
    private Drivers() { }

    static ResourceOpener opener(final String className, final List<String> properties) {
        final Object driver = make(className);
        properties.forEach(property -> set(driver, property));
        if (driver instanceof XADataSource source) {
            return () -> database(source);
        }
        if (driver instanceof XAConnectionFactory factory) {
            return () -> broker(factory);
        }
        throw new IllegalArgumentException(className + " is neither a javax.sql.XADataSource nor a javax.jms.XAConnectionFactory");
    }

    private static Object make(final String className) {
        try {
            return Class.forName(className).getConstructor().newInstance();
        } catch (ReflectiveOperationException | LinkageError error) {
            throw new IllegalArgumentException(className + " can't be made: is its jar in the class path? " + error, error);
        }
    }

    private static void set(final Object driver, final String property) {
        final String[] words = property.split("=", 2);
        final String setter = words.length < 2 ? "" : "set" + words[0];
        for (final Method method : driver.getClass().getMethods()) {
            if (method.getName().toLowerCase(Locale.ROOT).equals(setter.toLowerCase(Locale.ROOT)) && method.getParameterCount() == 1
                    && isSet(driver, method, words[1])) {
                return;
            }
        }
        throw new IllegalArgumentException(driver.getClass().getName() + " has no property that can be set so: " + property);
    }

    private static boolean isSet(final Object driver, final Method method, final String value) {
        final Class<?> type = method.getParameterTypes()[0];
        try {
            if (type == String.class) {
                method.invoke(driver, value);
            } else if (type == int.class) {
                method.invoke(driver, Integer.valueOf(value));
            } else if (type == boolean.class) {
                method.invoke(driver, Boolean.valueOf(value));
            } else {
                return false;
            }
            return true;
        } catch (IllegalAccessException | InvocationTargetException error) {
            throw new IllegalArgumentException(method.getName() + " fails: " + error.getCause(), error);
        }
    }

    private static OpenResource database(final XADataSource source) throws SQLException {
        final javax.sql.XAConnection connection = source.getXAConnection();
        try {
            return new Opened(connection.getXAResource(), connection::close);
        } catch (SQLException error) {
            connection.close();
            throw error;
        }
    }

    private static OpenResource broker(final XAConnectionFactory factory) throws JMSException {
        final javax.jms.XAConnection connection = factory.createXAConnection();
        try {
            final XASession session = connection.createXASession();
            return new Opened(session.getXAResource(), connection::close);
        } catch (JMSException error) {
            connection.close();
            throw error;
        }
    }

    /** Closes a driver's connection. */
    private interface Closing {
        void close() throws SQLException, JMSException;
    }

    /** A driver's connection. */
    private record Opened(XAResource resource, Closing closing) implements OpenResource {
        @Override
        public void close() {
            try {
                closing.close();
            } catch (SQLException | JMSException error) {
                Log.debug("a connection isn't closed: %s", XaErrors.text(error));
            }
        }
    }
}
