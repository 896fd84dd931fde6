package pcommit.xa;

import java.nio.charset.StandardCharsets;
import java.util.Collection;
import java.util.List;
import java.util.stream.Collectors;
import java.util.stream.Stream;

/**
 * The row that a transaction writes at each of its resource managers: under its gtrid, the numbers of all that take part. So whoever
 * finds a prepared branch and has only its name can learn the transaction's.
 */
final class Participants {
    private Participants() { }

    static byte[] write(final Collection<Integer> managers) {
        return managers.stream().sorted().map(Object::toString).collect(Collectors.joining(",")).getBytes(StandardCharsets.US_ASCII);
    }

    /** Reads a row. It fails with an IllegalArgumentException where it is none of ours. */
    static List<Integer> read(final byte[] row) {
        final String text = new String(row, StandardCharsets.US_ASCII);
        if (!text.matches("[0-9]{1,2}(,[0-9]{1,2})*")) {
            throw new IllegalArgumentException("a row that names no participants: " + text);
        }
        return Stream.of(text.split(",")).map(Integer::valueOf).toList();
    }
}
