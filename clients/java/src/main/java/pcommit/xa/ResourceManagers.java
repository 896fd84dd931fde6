package pcommit.xa;

import java.util.Map;
import java.util.concurrent.ConcurrentHashMap;
import pcommit.client.ClusterFile;
import pcommit.client.NodeName;

/** The resource managers that an application has registered. */
final class ResourceManagers {
    private static final int MOST_NAME = 64;
    private final Map<String, ResourceManager> byName = new ConcurrentHashMap<>();

    synchronized void register(final ClusterFile file, final ResourceManager manager) {
        final String name = manager.name();
        if (name.isEmpty() || name.length() > MOST_NAME) {
            throw new IllegalArgumentException("the name of a resource manager has 1 to 64 letters, and not " + name.length());
        }
        if (!file.addresses().containsKey(NodeName.resourceManager(manager.number()))) {
            throw new IllegalArgumentException("the cluster's file names no r" + manager.number() + " with a place for clients");
        }
        for (final ResourceManager other : byName.values()) {
            if (other.name().equals(name) || other.number() == manager.number()) {
                throw new IllegalArgumentException(other + " is registered already");
            }
        }
        byName.put(name, manager);
    }

    /** The one of a name, or null. */
    ResourceManager find(final String name) {
        return byName.get(name);
    }
}
