package pcommit.xa;

/** What operators are told, under the name {@code pcommit.xa}. */
final class Log {
    private static final System.Logger LOGGER = System.getLogger("pcommit.xa");

    private Log() { }

    static void debug(final String words, final Object... values) {
        if (LOGGER.isLoggable(System.Logger.Level.DEBUG)) {
            LOGGER.log(System.Logger.Level.DEBUG, String.format(words, values));
        }
    }

    static void info(final String words, final Object... values) {
        LOGGER.log(System.Logger.Level.INFO, String.format(words, values));
    }

    static void warn(final String words, final Object... values) {
        LOGGER.log(System.Logger.Level.WARNING, String.format(words, values));
    }

    /** What a person has to look at. */
    static void loud(final String words, final Object... values) {
        LOGGER.log(System.Logger.Level.ERROR, String.format(words, values));
    }
}
