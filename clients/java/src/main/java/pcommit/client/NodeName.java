package pcommit.client;

/**
 * A node of a cluster.
 *
 * @param kind   what it does
 * @param number its number among those of its kind, from 0
 */
public record NodeName(NodeKind kind, int number) {
    /**
     * A resource manager.
     *
     * @param number its number, from 0
     * @return its name
     */
    public static NodeName resourceManager(final int number) {
        return new NodeName(NodeKind.RESOURCE_MANAGER, number);
    }

    /**
     * A leader.
     *
     * @param number its number, from 0
     * @return its name
     */
    public static NodeName leader(final int number) {
        return new NodeName(NodeKind.LEADER, number);
    }

    /**
     * Reads a name, as {@code r0}.
     *
     * @param text the name
     * @return the node
     * @throws IllegalArgumentException where the text names no node
     */
    public static NodeName parse(final String text) {
        for (final NodeKind kind : NodeKind.values()) {
            if (text.matches(kind.letter() + "(0|[1-9][0-9]{0,2})")) {
                return new NodeName(kind, Integer.parseInt(text.substring(1)));
            }
        }
        throw new IllegalArgumentException("it names no node: " + text);
    }

    @Override
    public String toString() {
        return kind.letter() + Integer.toString(number);
    }
}
