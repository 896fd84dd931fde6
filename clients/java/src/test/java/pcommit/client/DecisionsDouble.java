package pcommit.client;

import java.util.ArrayList;
import java.util.HashMap;
import java.util.HashSet;
import java.util.List;
import java.util.Locale;
import java.util.Map;
import java.util.Set;
import java.util.TreeMap;

/** What a {@link ClusterDouble} answers: branches, rows and outcomes as docs/PROTOCOL.md tells, in one memory, with nothing that fails. */
final class DecisionsDouble {
    private final Map<Integer, Manager> managers = new HashMap<>();
    private final Map<String, Outcome> outcomes = new HashMap<>();

    /** A branch. */
    private static final class Branch {
        private final Map<String, String> writes = new HashMap<>();
        private boolean isIdle;
        private String boundTo;
    }

    /** A resource manager. */
    private static final class Manager {
        private final Map<String, Branch> branches = new HashMap<>();
        private final Set<String> spent = new HashSet<>();
        private final TreeMap<String, String> table = new TreeMap<>();
    }

    private final List<String> lines = new ArrayList<>();

    synchronized List<String> lines() {
        return List.copyOf(lines);
    }

    synchronized String answer(final NodeName node, final String line) {
        lines.add(line);
        final String[] words = line.split(" ");
        if (words[0].equals("info")) {
            return "info " + node + " record 0";
        }
        if (words.length < 2 || !words[1].equals(node.toString())) {
            return "refused 15";
        }
        if (node.kind() == NodeKind.LEADER) {
            return leader(words);
        }
        return manager(node.number(), managers.computeIfAbsent(node.number(), any -> new Manager()), words);
    }

    private String leader(final String[] words) {
        final TransactionName tx = words.length > 2 ? TransactionName.parse(words[2]) : null;
        return switch (words[0]) {
            case "commit" -> {
                decide(tx, true);
                yield text(outcomes.get(tx.toString()));
            }
            case "timeout" -> {
                decide(tx, false);
                yield "ok";
            }
            case "status", "await" -> outcomes.containsKey(words[2]) ? text(outcomes.get(words[2])) : "unknown";
            case "open" -> "open";
            default -> "refused 7";
        };
    }

    private static String text(final Outcome outcome) {
        return outcome.name().toLowerCase(Locale.ROOT);
    }

    private void decide(final TransactionName tx, final boolean mayVote) {
        final String name = tx.toString();
        if (outcomes.containsKey(name)) {
            return;
        }
        boolean isPrepared = mayVote;
        for (final int number : tx.bquals().keySet()) {
            final Branch branch = managers.computeIfAbsent(number, any -> new Manager()).branches.get(tx.branch(number).toString());
            isPrepared &= branch != null && branch.isIdle && branch.boundTo == null;
        }
        outcomes.put(name, isPrepared ? Outcome.COMMITTED : Outcome.ABORTED);
        for (final int number : tx.bquals().keySet()) {
            final Manager manager = managers.get(number);
            manager.spent.add(tx.branch(number).toString());
            final Branch branch = manager.branches.remove(tx.branch(number).toString());
            if (isPrepared && branch != null) {
                branch.writes.forEach((key, value) -> {
                    if (value == null) {
                        manager.table.remove(key);
                    } else {
                        manager.table.put(key, value);
                    }
                });
            }
        }
    }

    private String manager(final int number, final Manager manager, final String[] words) {
        return switch (words[0]) {
            case "view", "await" -> outcomes.containsKey(words[2]) ? text(outcomes.get(words[2])) : "working";
            case "open" -> "open";
            case "recover" -> "xids";
            case "table" -> {
                final StringBuilder rows = new StringBuilder("rows");
                manager.table.forEach((key, value) -> rows.append(' ').append(key).append('=').append(value));
                yield rows.toString();
            }
            case "start" -> {
                if (manager.branches.containsKey(words[2]) || manager.spent.contains(words[2])) {
                    yield "-8";
                }
                manager.branches.put(words[2], new Branch());
                yield "0";
            }
            default -> call(manager, manager.branches.get(words[2]), words);
        };
    }

    private String call(final Manager manager, final Branch branch, final String[] words) {
        if (branch == null) {
            return "-4";
        }
        switch (words[0]) {
            case "end" -> {
                branch.isIdle = words.length == 3;
                return branch.isIdle ? "0" : "100";
            }
            case "rollback" -> {
                manager.branches.remove(words[2]);
                return "0";
            }
            case "get" -> {
                final String value = manager.table.get(words[3]);
                return isHeld(manager, branch, words[3]) ? "refused 9" : value == null ? "none" : "value " + value;
            }
            default -> {
                if (isHeld(manager, branch, words[3])) {
                    return "refused 9";
                }
                branch.writes.put(words[3], words[0].equals("put") ? words[4] : null);
                return "0";
            }
        }
    }

    private static boolean isHeld(final Manager manager, final Branch mine, final String key) {
        return manager.branches.values().stream().anyMatch(other -> other != mine && other.writes.containsKey(key));
    }
}
