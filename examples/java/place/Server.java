package place;

import java.io.IOException;
import java.time.Duration;

/** A server of data in a process of its own, which can be killed and started again over what it has stored. */
public interface Server {
    /** A short name. */
    String name();

    /** The processor time that its processes have taken. */
    Duration processorTime();

    /** Starts it, and waits until it serves. */
    void start() throws IOException, InterruptedException;

    /** Ends it as a crash would, and waits until it is gone. */
    void kill() throws IOException, InterruptedException;
}
