package pcommit.real;

import java.lang.reflect.InvocationTargetException;
import java.lang.reflect.Method;
import java.lang.reflect.Proxy;
import java.sql.SQLException;
import java.util.concurrent.CountDownLatch;
import java.util.concurrent.TimeUnit;
import java.util.function.Consumer;
import javax.jms.JMSException;
import javax.transaction.xa.XAResource;
import pcommit.xa.CommitStep;
import pcommit.xa.PaxosTransactionManager;

/** One order in which something is called at each step. PostgreSQL is the first to prepare and to commit, and the others come after it. */
final class SteppedOrder extends RealOrder {
    private static final long PATIENCE = 60;
    private final Consumer<Step> listener;
    private final CountDownLatch firstPrepared = new CountDownLatch(1);
    private final CountDownLatch firstTold = new CountDownLatch(1);

    SteppedOrder(final PaxosTransactionManager manager, final String bankUrl, final String shopUrl, final String brokerUrl,
            final Consumer<Step> listener) throws SQLException, JMSException {
        super(manager, bankUrl, shopUrl, brokerUrl);
        this.listener = listener;
        manager.onStep(this::reached);
    }

    private void reached(final CommitStep step) {
        if (step != CommitStep.TOLD) {
            listener.accept(Step.valueOf(step.name()));
        }
    }

    @Override
    void worked() {
        listener.accept(Step.WORKED);
    }

    @Override
    XAResource enlisted(final String name, final XAResource resource) {
        final boolean isFirst = name.equals("bank");
        return (XAResource) Proxy.newProxyInstance(SteppedOrder.class.getClassLoader(), new Class<?>[] {XAResource.class},
                (proxy, method, values) -> switch (method.getName()) {
                    case "prepare" -> inTurn(isFirst, firstPrepared, Step.ONE_PREPARED, () -> call(resource, method, values));
                    case "commit" -> inTurn(isFirst, firstTold, Step.ONE_TOLD, () -> call(resource, method, values));
                    default -> call(resource, method, values);
                });
    }

    /** A call of a resource. */
    private interface Call {
        Object make() throws Throwable;
    }

    private static Object call(final XAResource resource, final Method method, final Object[] values) throws Throwable {
        try {
            return method.invoke(resource, values);
        } catch (InvocationTargetException error) {
            throw error.getCause();
        }
    }

    /** The first makes its call, and something is called when it has; the others make theirs then. */
    private Object inTurn(final boolean isFirst, final CountDownLatch done, final Step step, final Call call) throws Throwable {
        if (!isFirst) {
            if (!done.await(PATIENCE, TimeUnit.SECONDS)) {
                throw new IllegalStateException("the first resource hangs");
            }
            return call.make();
        }
        try {
            final Object answer = call.make();
            listener.accept(step);
            return answer;
        } finally {
            done.countDown();
        }
    }
}
