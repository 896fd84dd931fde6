package pcommit.xa;

import java.util.ArrayList;
import java.util.Collection;
import java.util.List;
import java.util.Map;
import java.util.Queue;
import java.util.concurrent.ConcurrentHashMap;
import java.util.concurrent.ConcurrentLinkedQueue;

/**
 * Rows of participants that nobody will ask for, since all resources have answered that they have committed. Later transactions at the same
 * resource managers delete them. What a stop leaves behind stays, and harms nobody.
 */
final class FinishedRows {
    private static final int MOST = 8;
    private final Map<Integer, Queue<String>> keys = new ConcurrentHashMap<>();

    void add(final Collection<Integer> managers, final String key) {
        managers.forEach(manager -> queue(manager).add(key));
    }

    /** Some rows to delete at a manager. They are taken. */
    List<String> take(final int manager) {
        final List<String> taken = new ArrayList<>();
        final Queue<String> queue = queue(manager);
        for (String key = queue.poll(); key != null; key = taken.size() < MOST ? queue.poll() : null) {
            taken.add(key);
        }
        return taken;
    }

    /** Some rows that were taken are there still, since the transaction that was to delete them isn't committed. */
    void putBack(final int manager, final List<String> taken) {
        queue(manager).addAll(taken);
    }

    private Queue<String> queue(final int manager) {
        return keys.computeIfAbsent(manager, any -> new ConcurrentLinkedQueue<>());
    }
}
