package pcommit.xa;

import java.nio.ByteBuffer;
import java.nio.charset.StandardCharsets;
import java.security.SecureRandom;
import java.util.Arrays;
import java.util.HexFormat;
import java.util.Optional;
import java.util.SortedMap;
import java.util.TreeMap;
import java.util.concurrent.atomic.AtomicLong;
import javax.transaction.xa.Xid;
import pcommit.client.BranchName;
import pcommit.client.TransactionName;

/** Makes and reads the names of transactions and branches of one cluster. */
final class Names {
    private static final int GTRID_BYTES = 2 * Long.BYTES;
    private static final int COUNTER_BITS = 16;

    private final String cluster;
    private final long maker = new SecureRandom().nextLong();
    private final AtomicLong last = new AtomicLong();

    Names(final byte[] digest) {
        cluster = HexFormat.of().formatHex(digest, 0, 4);
    }

    /** A gtrid that nobody else makes: 48 bits of milliseconds, 16 of a counter, 64 of this maker. It is greater than those before it. */
    byte[] newGtrid() {
        final long now = System.currentTimeMillis() << COUNTER_BITS;
        final long own = last.updateAndGet(before -> Math.max(before + 1, now));
        return ByteBuffer.allocate(GTRID_BYTES).putLong(own).putLong(maker).array();
    }

    /**
     * The bqual of all branches at a resource manager, as {@code r0.1f2e3d4c}: the manager, and the first bytes of the cluster's digest.
     */
    byte[] bqual(final int manager) {
        return ("r" + manager + "." + cluster).getBytes(StandardCharsets.US_ASCII);
    }

    PaxosXid xid(final byte[] gtrid, final int manager) {
        return new PaxosXid(new BranchName(PaxosXid.FORMAT, gtrid, bqual(manager)));
    }

    /** The transaction of a gtrid in which these managers take part. */
    TransactionName transaction(final byte[] gtrid, final Iterable<Integer> managers) {
        final SortedMap<Integer, byte[]> bquals = new TreeMap<>();
        managers.forEach(manager -> bquals.put(manager, bqual(manager)));
        return new TransactionName(PaxosXid.FORMAT, gtrid, bquals);
    }

    /** The branch at a manager that a resource has prepared, where it is one of this cluster's. */
    Optional<PaxosXid> own(final Xid xid, final int manager) {
        if (xid.getFormatId() != PaxosXid.FORMAT || xid.getGlobalTransactionId().length != GTRID_BYTES
                || !Arrays.equals(xid.getBranchQualifier(), bqual(manager))) {
            return Optional.empty();
        }
        return Optional.of(xid(xid.getGlobalTransactionId(), manager));
    }
}
