package pcommit.xa;

import java.util.Arrays;
import javax.transaction.xa.XAException;
import javax.transaction.xa.XAResource;
import javax.transaction.xa.Xid;

/** What exceptions of resources mean, and whether a resource lists a branch. */
final class XaErrors {
    private static final int ALL = XAResource.TMSTARTRSCAN | XAResource.TMENDRSCAN;

    private XaErrors() { }

    /** What recover lists, never null. */
    static Xid[] recover(final XAResource resource) throws XAException {
        final Xid[] listed = resource.recover(ALL);
        return listed == null ? new Xid[0] : listed;
    }

    /** Whether a resource lists a branch as prepared. */
    static boolean isListed(final XAResource resource, final PaxosXid xid) throws XAException {
        for (final Xid listed : recover(resource)) {
            if (listed.getFormatId() == xid.getFormatId() && Arrays.equals(listed.getGlobalTransactionId(), xid.getGlobalTransactionId())
                    && Arrays.equals(listed.getBranchQualifier(), xid.getBranchQualifier())) {
                return true;
            }
        }
        return false;
    }

    static boolean isUnknownBranch(final Exception error) {
        return error instanceof XAException refused && refused.errorCode == XAException.XAER_NOTA;
    }

    static boolean isRolledBack(final Exception error) {
        return error instanceof XAException refused && refused.errorCode >= XAException.XA_RBBASE
                && refused.errorCode <= XAException.XA_RBEND;
    }

    /** An exception in words, with its code and its cause. */
    static String text(final Throwable error) {
        final StringBuilder words = new StringBuilder(error.getClass().getSimpleName());
        if (error instanceof XAException refused) {
            words.append(" with code ").append(refused.errorCode);
        }
        if (error.getMessage() != null) {
            words.append(": ").append(error.getMessage().lines().findFirst().orElse(""));
        }
        if (error.getCause() != null && error.getCause() != error) {
            words.append("; ").append(text(error.getCause()));
        }
        return words.toString();
    }
}
