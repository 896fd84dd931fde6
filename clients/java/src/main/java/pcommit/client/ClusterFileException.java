package pcommit.client;

/** A cluster's file, or its key, that can't be read: the message says what is wrong and where. */
public final class ClusterFileException extends Exception {
    private static final long serialVersionUID = 1L;

    ClusterFileException(final String message) {
        super(message);
    }
}
