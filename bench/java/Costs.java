import java.time.Duration;
import java.util.LinkedHashMap;
import java.util.Map;
import java.util.stream.Collectors;
import place.Place;
import place.Server;

/** The processor time that each party has taken, and so what one order takes of each. */
final class Costs {
    private final Map<String, Duration> taken = new LinkedHashMap<>();

    private Costs() { }

    /** What all have taken until now. */
    static Costs now(final Place place) {
        final Costs costs = new Costs();
        costs.taken.put("clients", ProcessHandle.current().info().totalCpuDuration().orElse(Duration.ZERO));
        for (final Server server : place.servers()) {
            costs.taken.put(server.name(), server.processorTime());
        }
        costs.taken.put("nodes", place.nodes().processorTime());
        return costs;
    }

    /** What was taken since an earlier moment. */
    Costs since(final Costs earlier) {
        final Costs costs = new Costs();
        taken.forEach((who, time) -> costs.taken.put(who, time.minus(earlier.taken.get(who))));
        return costs;
    }

    /** The sum with another's. */
    Costs and(final Costs other) {
        final Costs costs = new Costs();
        taken.forEach((who, time) -> costs.taken.put(who, time.plus(other.taken.getOrDefault(who, Duration.ZERO))));
        return costs;
    }

    /** What one of so many orders took, in words. */
    String of(final int orders) {
        final Duration sum = taken.values().stream().reduce(Duration.ZERO, Duration::plus);
        return "%.2f ms of processors: ".formatted(millis(sum, orders)) + taken.entrySet().stream()
                .map(one -> "%s %.2f".formatted(one.getKey(), millis(one.getValue(), orders))).collect(Collectors.joining(", "));
    }

    private static double millis(final Duration time, final int orders) {
        return time.toNanos() / 1e6 / Math.max(1, orders);
    }
}
