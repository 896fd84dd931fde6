package pcommit.xa;

/**
 * A resource manager of the cluster, as the application knows it.
 *
 * @param name   the application's name for it
 * @param number its number in the cluster
 * @param answer whether its resources are believed when they say that they have prepared
 */
record ResourceManager(String name, int number, PrepareAnswer answer) {
    @Override
    public String toString() {
        return name + " (r" + number + ")";
    }
}
