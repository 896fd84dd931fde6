package place;

import java.io.IOException;
import java.nio.file.Files;
import java.nio.file.Path;
import java.time.Duration;
import java.util.ArrayList;
import java.util.Enumeration;
import java.util.List;
import java.util.function.Predicate;
import javax.jms.Connection;
import javax.jms.JMSException;
import javax.jms.Message;
import javax.jms.MessageConsumer;
import javax.jms.QueueBrowser;
import javax.jms.Session;
import javax.jms.TextMessage;
import org.apache.activemq.ActiveMQConnectionFactory;
import org.apache.activemq.ActiveMQXAConnectionFactory;
import org.apache.activemq.command.ActiveMQQueue;

/** An ActiveMQ broker in a process of its own, with a store in a folder, on loopback. */
public final class BrokerServer implements Server {
    /** The queue of orders. */
    public static final String QUEUE = "orders";
    private static final long LAST = 2000;
    private final Path data;
    private final Path log;
    private final int port = Hosts.freePort();
    private Child child;

    BrokerServer(final Path folder) throws IOException {
        data = folder.resolve("activemq");
        log = folder.resolve("activemq.log");
        Files.createDirectories(data);
    }

    @Override
    public String name() {
        return "ActiveMQ";
    }

    @Override
    public Duration processorTime() {
        return child.processorTime();
    }

    @Override
    public void start() throws IOException, InterruptedException {
        child = Child.start(Java.command(List.of("-Xmx256m"), BrokerMain.class.getName(), data.toString(), Integer.toString(port)), log);
        child.until(this::isServing);
    }

    private boolean isServing() {
        try {
            factory().createConnection().close();
            return true;
        } catch (JMSException error) {
            return false;
        }
    }

    @Override
    public void kill() throws InterruptedException {
        child.kill();
    }

    /** Its address for clients. */
    public String url() {
        return "tcp://127.0.0.1:" + port;
    }

    /** Its driver's source of XA connections. */
    public ActiveMQXAConnectionFactory source() {
        final ActiveMQXAConnectionFactory factory = new ActiveMQXAConnectionFactory(url());
        factory.setWatchTopicAdvisories(false);
        return factory;
    }

    private ActiveMQConnectionFactory factory() {
        final ActiveMQConnectionFactory factory = new ActiveMQConnectionFactory(url());
        factory.setWatchTopicAdvisories(false);
        return factory;
    }

    /** The texts of the messages that are there, which stay. */
    public List<String> messages() throws JMSException {
        final List<String> texts = new ArrayList<>();
        final Connection connection = factory().createConnection();
        try {
            connection.start();
            final QueueBrowser browser = connection.createSession(false, Session.AUTO_ACKNOWLEDGE).createBrowser(new ActiveMQQueue(QUEUE));
            final Enumeration<?> there = browser.getEnumeration();
            while (there.hasMoreElements()) {
                texts.add(((TextMessage) there.nextElement()).getText());
            }
        } finally {
            connection.close();
        }
        return texts;
    }

    /** Takes messages until none comes any more, each by a commit of its own, and says for how many something is so. */
    public int take(final Predicate<String> wanted) throws JMSException {
        int count = 0;
        final Connection connection = factory().createConnection();
        try {
            connection.start();
            final MessageConsumer consumer = connection.createSession(false, Session.AUTO_ACKNOWLEDGE)
                    .createConsumer(new ActiveMQQueue(QUEUE));
            for (Message message = consumer.receive(LAST); message != null; message = consumer.receive(LAST)) {
                count += wanted.test(((TextMessage) message).getText()) ? 1 : 0;
            }
        } finally {
            connection.close();
        }
        return count;
    }
}
