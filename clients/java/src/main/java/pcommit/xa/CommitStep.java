package pcommit.xa;

/** A step of a commit that is done. */
public enum CommitStep {
    /** All resources have prepared. */
    PREPARED,
    /** The branches are ended at their resource managers, which may vote now. */
    SAID,
    /** The outcome is known. */
    DECIDED,
    /** All resources were told the outcome. */
    TOLD
}
