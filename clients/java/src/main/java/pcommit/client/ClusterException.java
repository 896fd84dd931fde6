package pcommit.client;

/** A call of a cluster that didn't come to what it asks for. */
public abstract class ClusterException extends Exception {
    private static final long serialVersionUID = 1L;

    ClusterException(final String message, final Throwable cause) {
        super(message, cause);
    }
}
