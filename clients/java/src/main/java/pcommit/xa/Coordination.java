package pcommit.xa;

import java.util.function.Consumer;
import pcommit.client.Cluster;

/** What all transactions of a manager share. */
record Coordination(Cluster cluster, Names names, ParallelCalls calls, FinishedRows finished, Consumer<CommitStep> listener) { }
