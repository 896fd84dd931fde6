package pcommit.xa;

import java.util.Arrays;
import java.util.List;
import java.util.Optional;
import pcommit.client.BranchName;
import pcommit.client.Cluster;
import pcommit.client.Cluster.Look;
import pcommit.client.NodeGoneException;
import pcommit.client.Outcome;
import pcommit.client.RefusedException;
import pcommit.client.TransactionName;
import pcommit.client.View;

/**
 * How prepared branches at one resource end, as the resource manager beside it says. Of a branch only its own name is known, and not who
 * else takes part. Its transaction is found in one of three ways:
 *
 * <ul>
 * <li>the manager has voted and waits: it is among what is open there. A leader is asked to decide it;</li>
 * <li>the manager has committed it: its row says who takes part, and the manager's view of that transaction is the outcome;</li>
 * <li>neither: its application hasn't ended the branch at the manager, or it is aborted. Then a leader is asked to abort a transaction of
 * this branch alone. Once the manager knows that as aborted, the branch's name is spent: no vote under it comes any more. If nothing is
 * open and there is no row then, the branch will never be committed, and is rolled back.</li>
 * </ul>
 */
final class Verdicts {
    private final Cluster cluster;
    private final Names names;
    private final int manager;

    Verdicts(final Cluster cluster, final Names names, final int manager) {
        this.cluster = cluster;
        this.names = names;
        this.manager = manager;
    }

    /**
     * What is known of a prepared branch.
     *
     * @param outcome   how it ends, empty where it is to be asked for again
     * @param undecided the transaction that a leader is to decide meanwhile, if one is to
     */
    record Verdict(Optional<Outcome> outcome, Optional<TransactionName> undecided) {
        static Verdict askAgain() {
            return new Verdict(Optional.empty(), Optional.empty());
        }

        private static Verdict decide(final TransactionName transaction) {
            return new Verdict(Optional.empty(), Optional.of(transaction));
        }

        private static Verdict ends(final Outcome outcome) {
            return new Verdict(Optional.of(outcome), Optional.empty());
        }
    }

    /** How a prepared branch ends, as far as the manager knows. It fails where the manager doesn't answer. */
    Verdict of(final PaxosXid xid) throws NodeGoneException, RefusedException {
        final byte[] gtrid = xid.getGlobalTransactionId();
        final TransactionName alone = names.transaction(gtrid, List.of(manager));
        final Look look = look(xid, alone);
        for (final TransactionName open : look.open()) {
            if (open.format() == PaxosXid.FORMAT && Arrays.equals(open.gtrid(), gtrid)) {
                return Verdict.decide(open);
            }
        }
        if (look.value().isPresent()) {
            return committed(xid, look.value().get());
        }
        if (look.view() != View.ABORTED) {
            return Verdict.decide(alone);
        }
        // a branch that writes the row hasn't voted, and its name is spent: it goes, and then the row is free
        return look.isBusy() ? Verdict.askAgain() : Verdict.ends(Outcome.ABORTED);
    }

    private Look look(final PaxosXid xid, final TransactionName alone) throws NodeGoneException, RefusedException {
        return cluster.look(manager, alone, new BranchName(PaxosXid.FORMAT, names.newGtrid(), names.bqual(manager)), xid.rowKey());
    }

    /** Asks the manager about a branch that nobody has, which changes nothing, and connects to a leader. */
    void greet() throws NodeGoneException, RefusedException {
        final PaxosXid nobody = names.xid(names.newGtrid(), manager);
        look(nobody, names.transaction(nobody.getGlobalTransactionId(), List.of(manager)));
        cluster.greetLeaders();
    }

    private Verdict committed(final PaxosXid xid, final byte[] row) throws NodeGoneException, RefusedException {
        final TransactionName transaction = names.transaction(xid.getGlobalTransactionId(), Participants.read(row));
        return switch (cluster.view(manager, transaction)) {
            case COMMITTED -> Verdict.ends(Outcome.COMMITTED);
            case ABORTED -> Verdict.ends(Outcome.ABORTED);
            case WORKING, PREPARED -> Verdict.askAgain();
        };
    }
}
