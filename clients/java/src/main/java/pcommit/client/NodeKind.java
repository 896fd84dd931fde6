package pcommit.client;

/** What a node of a cluster does. */
public enum NodeKind {
    /** It remembers votes. */
    ACCEPTOR('a', "acceptor"),
    /** It asks for votes, decides, and tells the outcome. */
    LEADER('l', "leader"),
    /** It votes for a place of data. */
    RESOURCE_MANAGER('r', "rm");

    private final char letter;
    private final String section;

    NodeKind(final char letter, final String section) {
        this.letter = letter;
        this.section = section;
    }

    /**
     * The letter with which names of such nodes begin.
     *
     * @return {@code a}, {@code l} or {@code r}
     */
    public char letter() {
        return letter;
    }

    /** The word of the cluster's file for such nodes. */
    String section() {
        return section;
    }
}
