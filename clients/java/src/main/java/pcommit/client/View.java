package pcommit.client;

import java.util.Locale;

/** Where a resource manager stands in a transaction. */
public enum View {
    /** It hasn't voted. */
    WORKING,
    /** It has voted prepared, and waits for the outcome. */
    PREPARED,
    /** The transaction is committed. */
    COMMITTED,
    /** The transaction is aborted. */
    ABORTED;

    /** Reads an answer to {@code view}. */
    static View parse(final String answer) throws RefusedException {
        for (final View view : values()) {
            if (view.name().toLowerCase(Locale.ROOT).equals(answer)) {
                return view;
            }
        }
        throw new RefusedException("view", answer);
    }
}
