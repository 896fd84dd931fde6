package pcommit.client;

/** How a transaction ended. There is one for each transaction, and it never changes. */
public enum Outcome {
    /** What the transaction did stands everywhere. */
    COMMITTED,
    /** Nothing of it will ever be seen. */
    ABORTED
}
