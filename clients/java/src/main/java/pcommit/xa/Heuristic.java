package pcommit.xa;

import java.util.Optional;
import javax.transaction.xa.XAException;

/** What a resource did with a prepared branch by itself. */
enum Heuristic {
    /** It rolled the branch back. */
    ROLLED_BACK(XAException.XA_HEURRB),
    /** It committed the branch. */
    COMMITTED(XAException.XA_HEURCOM),
    /** It committed a part, and rolled another back. */
    MIXED(XAException.XA_HEURMIX),
    /** It did one or the other, and can't say which. */
    HAZARD(XAException.XA_HEURHAZ);

    private final int code;

    Heuristic(final int code) {
        this.code = code;
    }

    /** What an exception tells of it, if anything. */
    static Optional<Heuristic> of(final Exception error) {
        if (error instanceof XAException refused) {
            for (final Heuristic heuristic : values()) {
                if (heuristic.code == refused.errorCode) {
                    return Optional.of(heuristic);
                }
            }
        }
        return Optional.empty();
    }
}
