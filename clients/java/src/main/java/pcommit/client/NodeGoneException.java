package pcommit.client;

/** A node can't be reached, or went away or stayed silent before it answered. What it was asked may have happened. */
public final class NodeGoneException extends ClusterException {
    private static final long serialVersionUID = 1L;

    NodeGoneException(final NodeName node, final String reason, final Throwable cause) {
        super(node + ": " + reason, cause);
    }
}
