package pcommit.xa;

import java.util.ArrayList;
import java.util.Collections;
import java.util.HashMap;
import java.util.HexFormat;
import java.util.List;
import java.util.Map;
import java.util.Optional;
import java.util.TreeMap;
import java.util.concurrent.TimeoutException;
import java.util.function.Consumer;
import javax.transaction.Status;
import pcommit.client.Cluster;
import pcommit.client.Cluster.BranchAnswers;
import pcommit.client.ClusterException;
import pcommit.client.NodeGoneException;
import pcommit.client.Outcome;
import pcommit.client.TransactionName;
import pcommit.client.UnknownOutcomeException;
import pcommit.xa.Branch.State;
import pcommit.xa.ParallelCalls.Result;

/**
 * Ends one transaction at its resources. The order of the steps is what makes it safe: a branch is ended at its resource manager, which may
 * vote from then on, only after its resource has prepared; a leader is asked only after all branches are ended; a resource is told only
 * what the cluster has decided.
 */
final class TwoPhaseCommit {
    private final Cluster cluster;
    private final Names names;
    private final ParallelCalls calls;
    private final FinishedRows finished;
    private final Consumer<CommitStep> listener;
    private final byte[] gtrid;
    private final List<Branch> branches;
    private final Map<Integer, List<String>> deleted = new HashMap<>();
    private boolean isAsked;

    TwoPhaseCommit(final Coordination with, final byte[] gtrid, final List<Branch> branches) {
        cluster = with.cluster();
        names = with.names();
        calls = with.calls();
        finished = with.finished();
        listener = with.listener();
        this.gtrid = gtrid;
        this.branches = branches;
    }

    /** Commits, if all resources can. It ends whatever is thrown on the way: else what is prepared would be nobody's. */
    Ending commit() {
        Ending ending;
        try {
            ending = end();
        } catch (RuntimeException | Error error) {
            ending = broken(error);
        }
        if (ending.status() != Status.STATUS_COMMITTED) {
            deleted.forEach(finished::putBack);
        }
        return ending;
    }

    /** Where something was thrown that should not be. Before anybody could be asked to commit it is rolled back. */
    private Ending broken(final Throwable error) {
        Log.loud("a commit of %s is broken off: %s", HexFormat.of().formatHex(gtrid), XaErrors.text(error));
        if (isAsked) {
            return Ending.unknown("its commit was broken off: " + XaErrors.text(error), error);
        }
        branches.forEach(this::takeBack);
        return giveUp("its commit was broken off: " + XaErrors.text(error), error);
    }

    /** Tells the listener of a step after which the outcome is known: what it throws changes nothing. */
    private void reached(final CommitStep step) {
        try {
            listener.accept(step);
        } catch (RuntimeException | Error error) {
            Log.warn("a listener failed at %s: %s", step, XaErrors.text(error));
        }
    }

    private Ending end() {
        if (branches.isEmpty()) {
            return Ending.committed();
        }
        if (branches.size() == 1) {
            return commitOnePhase(branches.get(0));
        }
        final Optional<Ending> notPrepared = prepare();
        if (notPrepared.isPresent()) {
            return notPrepared.get();
        }
        listener.accept(CommitStep.PREPARED);
        final List<Branch> voters = branches.stream().filter(branch -> branch.state() == State.PREPARED).toList();
        if (voters.isEmpty()) {
            return Ending.committed();
        }
        final List<Integer> managers = voters.stream().map(branch -> branch.manager().number()).toList();
        try {
            say(voters, managers);
        } catch (ClusterException error) {
            return giveUp("a resource manager didn't take its branch: " + error.getMessage(), error);
        }
        listener.accept(CommitStep.SAID);
        return decide(voters, managers);
    }

    /** The only resource decides by itself. */
    private Ending commitOnePhase(final Branch branch) {
        isAsked = true;
        final Result<Void> result = calls.<Void>run(List.of(branch), one -> {
            one.commitOnePhase();
            return null;
        }).get(0);
        if (result.failure().isEmpty()) {
            return Ending.committed();
        }
        final Exception error = result.failure().get();
        if (!(error instanceof TimeoutException) && branch.state() != State.OVER) {
            return giveUp(branch + " doesn't end: " + XaErrors.text(error), error);
        }
        if (XaErrors.isRolledBack(error)) {
            return Ending.rolledBack(branch + ": " + XaErrors.text(error), error);
        }
        return Ending.unknown(branch + " failed in its only phase: " + XaErrors.text(error), error);
    }

    /** All resources prepare at once. How it ends where one doesn't. */
    private Optional<Ending> prepare() {
        final List<Result<Void>> results = calls.run(branches, branch -> {
            branch.prepare();
            return null;
        });
        Exception reason = null;
        String words = "";
        for (final Result<Void> result : results) {
            if (result.failure().isPresent()) {
                reason = result.failure().get();
                words = result.branch() + " hasn't prepared: " + XaErrors.text(reason);
                if (reason instanceof TimeoutException && result.branch().abandon()) {
                    Log.warn("%s didn't answer to prepare in time: it is left to its resolver", result.branch());
                }
            }
        }
        return reason == null ? Optional.empty() : Optional.of(giveUp(words, reason));
    }

    /** Ends the branches at their resource managers, with the row that says who takes part. */
    private void say(final List<Branch> voters, final List<Integer> managers) throws ClusterException {
        final byte[] row = Participants.write(managers);
        final List<Branch> begun = new ArrayList<>();
        try {
            final List<BranchAnswers> answers = new ArrayList<>();
            for (final Branch branch : voters) {
                final int manager = branch.manager().number();
                final var rows = new TreeMap<>(Collections.singletonMap(branch.xid().rowKey(), row));
                begun.add(branch);
                deleted.put(manager, finished.take(manager));
                answers.add(cluster.beginBranch(manager, branch.xid().name(), rows, deleted.get(manager)));
            }
            for (final BranchAnswers answer : answers) {
                answer.await();
            }
        } catch (ClusterException error) {
            begun.forEach(this::takeBack);
            throw error;
        }
    }

    /** Rolls back at a manager what no leader was asked about. Where it can't be reached, it does so by itself. */
    private void takeBack(final Branch branch) {
        try {
            cluster.rollBack(branch.manager().number(), branch.xid().name());
        } catch (NodeGoneException error) {
            Log.debug("%s is left to its manager: %s", branch, error.getMessage());
        }
    }

    private Ending decide(final List<Branch> voters, final List<Integer> managers) {
        final TransactionName transaction = names.transaction(gtrid, managers);
        final Outcome outcome;
        isAsked = true;
        try {
            outcome = cluster.settle(transaction);
        } catch (NodeGoneException error) {
            voters.forEach(this::takeBack);
            return giveUp("no leader could be asked: " + error.getMessage(), error);
        } catch (UnknownOutcomeException error) {
            Log.warn("the outcome of %s isn't known; its resources are left to their resolvers", transaction);
            return Ending.unknown(error.getMessage(), error);
        }
        reached(CommitStep.DECIDED);
        if (outcome == Outcome.ABORTED) {
            return rollBack(voters, "the cluster has aborted " + transaction, null);
        }
        final Ending ending = tell(voters, managers);
        reached(CommitStep.TOLD);
        return ending;
    }

    /** Tells all resources that the transaction is committed. */
    private Ending tell(final List<Branch> voters, final List<Integer> managers) {
        final List<Result<Optional<Heuristic>>> results = calls.run(voters, Branch::commit);
        boolean isFinished = true;
        int rolledBack = 0;
        String mixed = "";
        for (final Result<Optional<Heuristic>> result : results) {
            if (result.failure().isPresent()) {
                isFinished = false;
                leave(result, Outcome.COMMITTED);
            } else if (result.value().isPresent()) {
                isFinished = false;
                report(result, Outcome.COMMITTED);
                final Heuristic heuristic = result.value().get();
                rolledBack += heuristic == Heuristic.ROLLED_BACK ? 1 : 0;
                mixed += heuristic == Heuristic.COMMITTED ? "" : " " + result.branch() + ": " + heuristic;
            }
        }
        if (isFinished) {
            finished.add(managers, voters.get(0).xid().rowKey());
        }
        if (mixed.isEmpty()) {
            return Ending.committed();
        }
        return Ending.committedBut(mixed, rolledBack == voters.size());
    }

    /** Rolls back what no leader was asked about. */
    private Ending giveUp(final String reason, final Throwable cause) {
        return rollBack(branches, reason, cause);
    }

    /** Rolls back at all resources that can be called. */
    Ending rollBack(final List<Branch> which, final String reason, final Throwable cause) {
        final List<Branch> callable = which.stream().filter(branch -> !branch.isAbandoned()).toList();
        String mixed = "";
        for (final Result<Optional<Heuristic>> result : calls.run(callable, Branch::rollBack)) {
            if (result.failure().isPresent()) {
                leave(result, Outcome.ABORTED);
            } else if (result.value().isPresent()) {
                report(result, Outcome.ABORTED);
                mixed += result.value().get() == Heuristic.ROLLED_BACK ? "" : " " + result.branch() + ": " + result.value().get();
            }
        }
        return mixed.isEmpty() ? Ending.rolledBack(reason, cause) : Ending.rolledBackBut(mixed, cause);
    }

    private static void leave(final Result<?> result, final Outcome outcome) {
        final Exception error = result.failure().orElseThrow();
        Log.warn("%s is %s, and its resource failed: %s. Where it is prepared, its resolver ends it", result.branch(), outcome,
                XaErrors.text(error));
    }

    private static void report(final Result<Optional<Heuristic>> result, final Outcome outcome) {
        Log.loud("HEURISTIC: %s is %s, and its resource did by itself: %s. It isn't forgotten: look at its data, then forget it by hand",
                result.branch(), outcome, result.value().orElseThrow());
    }
}
