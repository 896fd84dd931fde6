package pcommit.xa;

/** A resource didn't prepare, whatever it answered. */
final class NotPreparedException extends Exception {
    private static final long serialVersionUID = 1L;

    NotPreparedException(final String message) {
        super(message);
    }
}
