package place;

import java.io.IOException;
import java.nio.file.Files;
import java.nio.file.Path;
import java.time.Duration;
import java.util.List;
import java.util.Set;
import java.util.concurrent.ConcurrentHashMap;
import java.util.concurrent.CopyOnWriteArrayList;
import java.util.concurrent.TimeUnit;
import java.util.stream.Stream;

/** A process that this one started. When this one ends, or is interrupted, all that still run are killed by their ids. */
public final class Child {
    private static final Set<Process> RUNNING = ConcurrentHashMap.newKeySet();
    private static final long PATIENCE = 60;

    private static final List<Runnable> AT_END = new CopyOnWriteArrayList<>();
    // guarded by RUNNING, as is each start
    private static boolean isEnding;

    static {
        Runtime.getRuntime().addShutdownHook(new Thread(() -> {
            synchronized (RUNNING) {
                isEnding = true;
            }
            killAll();
            AT_END.forEach(Runnable::run);
        }));
    }

    private final Process process;
    private final Path log;

    private Child(final Process process, final Path log) {
        this.process = process;
        this.log = log;
    }

    /** Has something done when this process ends, once its children are gone. */
    static void atEnd(final Runnable work) {
        AT_END.add(work);
    }

    /** Kills all that run, and what these have started, and waits until they are gone. */
    static void killAll() {
        for (final Process process : RUNNING) {
            final List<ProcessHandle> started = process.descendants().toList();
            process.destroyForcibly();
            started.forEach(ProcessHandle::destroyForcibly);
            process.onExit().join();
            started.forEach(one -> one.onExit().join());
        }
    }

    /** Starts a program. What it says is appended to a file. */
    public static Child start(final List<String> words, final Path log) throws IOException {
        final ProcessBuilder builder = new ProcessBuilder(words).directory(log.getParent().toFile()).redirectErrorStream(true)
                .redirectOutput(ProcessBuilder.Redirect.appendTo(log.toFile()))
                        .redirectInput(ProcessBuilder.Redirect.from(Path.of("/dev/null").toFile()));
        synchronized (RUNNING) {
            if (isEnding) {
                throw new IOException("this process is being ended, and starts no other");
            }
            final Process process = builder.start();
            RUNNING.add(process);
            process.onExit().thenAccept(RUNNING::remove);
            return new Child(process, log);
        }
    }

    /** Runs a program to its end, which is to be a good one. */
    static void run(final List<String> words, final Path log) throws IOException, InterruptedException {
        final Child child = start(words, log);
        if (child.process.waitFor() != 0) {
            throw new IOException(words.get(0) + " failed: " + child.lastLine());
        }
    }

    public boolean isRunning() {
        return process.isAlive();
    }

    /** The processor time that it has taken, and what it has started and still runs. */
    Duration processorTime() {
        return Stream.concat(Stream.of(process.toHandle()), process.descendants())
                .map(one -> one.info().totalCpuDuration().orElse(Duration.ZERO)).reduce(Duration.ZERO, Duration::plus);
    }

    /** Waits for its end. Its status. */
    public int await() throws InterruptedException {
        return process.waitFor();
    }

    /** Kills it at once, and waits until it is gone. */
    public void kill() throws InterruptedException {
        process.destroyForcibly();
        process.waitFor();
    }

    /** Sends it a signal that ends it, and waits until it is gone. */
    void stop(final String name) throws IOException, InterruptedException {
        new ProcessBuilder("kill", "-" + name, Long.toString(process.pid())).start().waitFor();
        if (!process.waitFor(PATIENCE, TimeUnit.SECONDS)) {
            throw new IOException("process " + process.pid() + " doesn't end");
        }
    }

    /** What it said last. */
    public String lastLine() throws IOException {
        final List<String> lines = Files.readAllLines(log);
        return lines.isEmpty() ? "" : lines.get(lines.size() - 1);
    }

    /** Whether it has said a line with these words. */
    public boolean hasSaid(final String words) throws IOException {
        return Files.readAllLines(log).stream().anyMatch(line -> line.contains(words));
    }

    /** Waits until something is so, while it runs. */
    void until(final Check check) throws IOException, InterruptedException {
        final long most = System.nanoTime() + TimeUnit.SECONDS.toNanos(PATIENCE);
        while (!check.isSo()) {
            if (!process.isAlive() || System.nanoTime() > most) {
                throw new IOException("it doesn't start; " + log + " ends with: " + lastLine());
            }
            Thread.sleep(20);
        }
    }

    /** What is waited for. */
    interface Check {
        boolean isSo() throws IOException;
    }
}
