package pcommit.real;

/** Where in the life of a transaction something happens. */
enum Step {
    /** All work is done, and nothing is prepared. */
    WORKED,
    /** PostgreSQL has prepared, and nobody else has. */
    ONE_PREPARED,
    /** All have prepared, and no branch is ended at its resource manager. */
    PREPARED,
    /** All branches are ended at their resource managers, and no leader is asked. */
    SAID,
    /** The outcome is known, and no resource is told. */
    DECIDED,
    /** PostgreSQL has committed, and nobody else has. */
    ONE_TOLD
}
