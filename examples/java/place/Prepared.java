package place;

import javax.transaction.xa.XAException;
import javax.transaction.xa.XAResource;
import javax.transaction.xa.Xid;

/**
 * How many branches are prepared at each of the servers of a place, whoever prepared them.
 *
 * @param postgresql at PostgreSQL
 * @param mariadb    at MariaDB
 * @param activemq   at ActiveMQ
 */
public record Prepared(int postgresql, int mariadb, int activemq) {
    static int count(final XAResource resource) throws XAException {
        final Xid[] listed = resource.recover(XAResource.TMSTARTRSCAN | XAResource.TMENDRSCAN);
        return listed == null ? 0 : listed.length;
    }

    /** Whether nothing is prepared anywhere. */
    public boolean isNone() {
        return postgresql + mariadb + activemq == 0;
    }

    @Override
    public String toString() {
        return postgresql + ", " + mariadb + " and " + activemq;
    }
}
