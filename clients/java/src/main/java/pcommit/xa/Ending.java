package pcommit.xa;

import javax.transaction.Status;

/**
 * How a transaction ended.
 *
 * @param kind   in which of the ways
 * @param status the outcome, one of {@link Status}
 * @param reason why, in words; empty where it is committed
 * @param cause  what was thrown, or null
 */
record Ending(Kind kind, int status, String reason, Throwable cause) {
    /** The ways in which a transaction ends. */
    enum Kind {
        /** Committed. */
        COMMITTED,
        /** Rolled back. */
        ROLLED_BACK,
        /** Nobody knows yet. */
        UNKNOWN,
        /** It is committed, and all resources have rolled back by themselves. */
        HEURISTICALLY_ROLLED_BACK,
        /** Some resource has done otherwise than the outcome says, by itself. */
        HEURISTICALLY_MIXED
    }

    static Ending committed() {
        return new Ending(Kind.COMMITTED, Status.STATUS_COMMITTED, "", null);
    }

    static Ending rolledBack(final String reason, final Throwable cause) {
        return new Ending(Kind.ROLLED_BACK, Status.STATUS_ROLLEDBACK, reason, cause);
    }

    static Ending unknown(final String reason, final Throwable cause) {
        return new Ending(Kind.UNKNOWN, Status.STATUS_UNKNOWN, reason, cause);
    }

    /** It is committed, and resources did otherwise. */
    static Ending committedBut(final String words, final boolean isRolledBackByAll) {
        final Kind kind = isRolledBackByAll ? Kind.HEURISTICALLY_ROLLED_BACK : Kind.HEURISTICALLY_MIXED;
        return new Ending(kind, Status.STATUS_COMMITTED, "it is committed, but:" + words, null);
    }

    /** It is rolled back, and resources did otherwise. */
    static Ending rolledBackBut(final String words, final Throwable cause) {
        return new Ending(Kind.HEURISTICALLY_MIXED, Status.STATUS_ROLLEDBACK, "it is rolled back, but:" + words, cause);
    }
}
