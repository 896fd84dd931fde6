package pcommit.real;

import java.util.HashMap;
import java.util.HexFormat;
import java.util.Map;
import java.util.concurrent.atomic.AtomicReference;
import javax.sql.XADataSource;
import javax.transaction.xa.XAResource;
import javax.transaction.xa.Xid;
import place.Place;

/** Watches for how long branches stay prepared at a server, while it is up. */
final class LockWatch extends Thread implements AutoCloseable {
    private static final long EVERY = 100;
    private final Place place;
    private final int number;
    private final Map<String, Long> since = new HashMap<>();
    private final AtomicReference<Double> longest = new AtomicReference<>(0.0);
    private volatile boolean isDown;
    private volatile boolean isClosed;
    private volatile boolean sees = true;

    LockWatch(final Place place, final int number) {
        super("watch of server " + number);
        setDaemon(true);
        this.place = place;
        this.number = number;
    }

    int number() {
        return number;
    }

    /** The longest time, in seconds, that a branch was seen prepared. */
    double longest() {
        return longest.get();
    }

    /** Whether something was prepared at the last look. */
    boolean sees() {
        return sees;
    }

    /** Its server goes down, or is back: times begin anew. */
    void serverIsDown(final boolean isDownNow) {
        isDown = isDownNow;
    }

    @Override
    public void run() {
        while (!isClosed) {
            try {
                watch();
            } catch (Exception error) {
                // its server is down, or was: it is asked again
                since.clear();
                sees = true;
                pause();
            }
        }
    }

    private void watch() throws Exception {
        if (number == 2) {
            final javax.jms.XAConnection connection = place.broker().source().createXAConnection();
            try {
                watch(connection.createXASession().getXAResource());
            } finally {
                connection.close();
            }
        } else {
            final XADataSource source = number == 0 ? place.postgresql().source() : place.mariadb().source();
            final var connection = source.getXAConnection();
            try {
                watch(connection.getXAResource());
            } finally {
                connection.close();
            }
        }
    }

    private void watch(final XAResource resource) throws Exception {
        while (!isClosed) {
            final Map<String, Long> listed = new HashMap<>();
            final Xid[] xids = resource.recover(XAResource.TMSTARTRSCAN | XAResource.TMENDRSCAN);
            final long now = System.nanoTime();
            for (final Xid xid : xids == null ? new Xid[0] : xids) {
                final String name = HexFormat.of().formatHex(xid.getGlobalTransactionId());
                listed.put(name, since.getOrDefault(name, now));
            }
            since.clear();
            if (isDown) {
                sees = true;
            } else {
                since.putAll(listed);
                sees = !listed.isEmpty();
                since.values().forEach(begun -> longest.accumulateAndGet((now - begun) / 1e9, Math::max));
            }
            pause();
        }
    }

    private static void pause() {
        try {
            Thread.sleep(EVERY);
        } catch (InterruptedException error) {
            Thread.currentThread().interrupt();
        }
    }

    @Override
    public void close() {
        isClosed = true;
    }
}
