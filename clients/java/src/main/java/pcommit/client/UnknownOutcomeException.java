package pcommit.client;

/**
 * A transaction was asked to commit, and no answer came. It may be committed now, or become so, or be aborted: this is never to be taken
 * for aborted, and its work is not to be run again before its outcome is known. {@link Cluster#settle} asks again.
 */
public final class UnknownOutcomeException extends ClusterException {
    private static final long serialVersionUID = 1L;
    private final transient TransactionName transaction;

    UnknownOutcomeException(final TransactionName transaction, final Throwable cause) {
        super("no answer came: the outcome of " + transaction + " is not known", cause);
        this.transaction = transaction;
    }

    /**
     * The transaction.
     *
     * @return its name, by which it can be asked for
     */
    public TransactionName transaction() {
        return transaction;
    }
}
