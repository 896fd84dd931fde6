package pcommit.xa;

import javax.transaction.xa.XAResource;

/** Opens connections to the resource that a {@link Resolver} stands beside. */
@FunctionalInterface
public interface ResourceOpener {
    /**
     * Connects.
     *
     * @return an open connection
     * @throws Exception where the resource can't be reached
     */
    OpenResource open() throws Exception;

    /** A connection to a resource. */
    interface OpenResource extends AutoCloseable {
        /**
         * The resource.
         *
         * @return the driver's
         */
        XAResource resource();

        /** Closes the connection. Where that fails, it is of no use any more all the same. */
        @Override
        void close();
    }
}
