package pcommit.xa;

/** Whether a resource is believed when it answers that it has prepared. */
public enum PrepareAnswer {
    /** Its {@code recover} has to list the branch too. PostgreSQL's driver answers yes after a failed statement, with nothing prepared. */
    VERIFIED,
    /** It is believed. MariaDB and ActiveMQ answer yes only where they have prepared. */
    TRUSTED
}
