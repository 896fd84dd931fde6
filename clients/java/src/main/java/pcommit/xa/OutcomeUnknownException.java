package pcommit.xa;

import javax.transaction.SystemException;

/**
 * A transaction was asked to commit, and no answer came: it may be committed now, or become so, or be aborted. It is never to be taken for
 * rolled back, and its work is not to be run again before that is known. The application closes the connections that took part; the
 * resolvers end what is prepared as soon as the cluster can be asked. Where the cause is a {@link pcommit.client.UnknownOutcomeException},
 * it names the transaction, and {@link pcommit.client.Cluster#settle} asks again.
 */
public final class OutcomeUnknownException extends SystemException {
    private static final long serialVersionUID = 1L;

    OutcomeUnknownException(final String message, final Throwable cause) {
        super(message);
        initCause(cause);
    }
}
