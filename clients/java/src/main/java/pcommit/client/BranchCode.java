package pcommit.client;

/** What a resource manager answers to a call on a branch: a code of X/Open XA, or a refusal of its own. */
public enum BranchCode {
    /** Done. */
    DONE("0"),
    /** Ended as failed: it can only be rolled back. */
    ROLLED_BACK("100"),
    /** There is no such branch, or none any more. */
    NO_BRANCH("-4"),
    /** A key or a value of a wrong length. */
    BAD_LENGTH("-5"),
    /** The branch isn't in a state for the call. */
    BAD_STATE("-6"),
    /** The manager is down. */
    DOWN("-7"),
    /** The name is in use, or was used. */
    NAME_IN_USE("-8"),
    /** Another branch holds the key. */
    BUSY("refused 9"),
    /** The branch has touched 64 keys. */
    FULL("refused 10"),
    /** Any other answer. */
    OTHER("");

    private final String answer;

    BranchCode(final String answer) {
        this.answer = answer;
    }

    static BranchCode of(final String answer) {
        for (final BranchCode code : values()) {
            if (code.answer.equals(answer)) {
                return code;
            }
        }
        return OTHER;
    }
}
