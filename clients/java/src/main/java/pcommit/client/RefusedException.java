package pcommit.client;

/** A node answered that it doesn't do what it was asked. It has done nothing. */
public final class RefusedException extends ClusterException {
    private static final long serialVersionUID = 1L;
    private final String answer;

    RefusedException(final String line, final String answer) {
        super("to \"" + (line.length() > 100 ? line.substring(0, 100) + ".." : line) + "\" the answer is: " + answer, null);
        this.answer = answer;
    }

    /**
     * What the node answered, as docs/FORMATS.md tells.
     *
     * @return a code of X/Open XA, or {@code refused} and a number
     */
    public String answer() {
        return answer;
    }
}
