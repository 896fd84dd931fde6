package pcommit.xa;

import java.time.Duration;
import java.util.ArrayList;
import java.util.List;
import java.util.Optional;
import java.util.concurrent.CountDownLatch;
import java.util.concurrent.ExecutorService;
import java.util.concurrent.Executors;
import java.util.concurrent.RejectedExecutionException;
import java.util.concurrent.TimeUnit;
import java.util.concurrent.TimeoutException;

/** Calls of several resources at once, each with a bounded time. */
final class ParallelCalls implements AutoCloseable {
    private final ExecutorService threads = Executors.newCachedThreadPool(call -> {
        final Thread thread = new Thread(call, "pcommit resource call");
        thread.setDaemon(true);
        return thread;
    });
    private final Duration patience;

    ParallelCalls(final Duration patience) {
        this.patience = patience;
    }

    /** A call of a branch's resource. */
    interface Call<T> {
        T of(Branch branch) throws Exception;
    }

    /** What came of one call: a value, or why there is none. After a call that wasn't answered its resource isn't called again. */
    record Result<T>(Branch branch, T value, Optional<Exception> failure) {
        private static <T> Result<T> failed(final Branch branch, final Exception reason) {
            return new Result<>(branch, null, Optional.of(reason));
        }
    }

    /** One call, and what came of it. Who waits for all of them is woken once, by the last. */
    private static final class Made<T> implements Runnable {
        private final Branch branch;
        private final Call<T> call;
        private final CountDownLatch left;
        private volatile Result<T> result;

        Made(final Branch branch, final Call<T> call, final CountDownLatch left) {
            this.branch = branch;
            this.call = call;
            this.left = left;
        }

        @Override
        public void run() {
            try {
                result = new Result<>(branch, call.of(branch), Optional.empty());
            } catch (Exception error) {
                result = Result.failed(branch, error);
            } catch (Error error) {
                result = Result.failed(branch, new IllegalStateException(error));
            }
            left.countDown();
        }

        /** What has come of it until now. */
        Result<T> result() {
            final Result<T> now = result;
            return now != null ? now : Result.failed(branch, new TimeoutException("it didn't answer in time"));
        }
    }

    /** Makes a call of each branch. The results stand in the order of the branches. */
    <T> List<Result<T>> run(final List<Branch> branches, final Call<T> call) {
        final CountDownLatch left = new CountDownLatch(branches.size());
        final List<Made<T>> calls = new ArrayList<>();
        for (final Branch branch : branches) {
            final Made<T> made = new Made<>(branch, call, left);
            calls.add(made);
            begin(made);
        }
        await(left);
        return calls.stream().map(Made::result).toList();
    }

    /** Begins a call in a thread of its own. Where none can be had, as after a close, it is made here: a commit comes to its end. */
    private void begin(final Runnable call) {
        try {
            threads.execute(call);
        } catch (RejectedExecutionException | OutOfMemoryError error) {
            call.run();
        }
    }

    /** Waits for calls. Who is interrupted meanwhile stays so, and waits all the same: the time is bounded. */
    private void await(final CountDownLatch left) {
        final long until = System.nanoTime() + patience.toNanos();
        boolean isInterrupted = false;
        boolean isOver = false;
        while (!isOver) {
            try {
                left.await(until - System.nanoTime(), TimeUnit.NANOSECONDS);
                isOver = true;
            } catch (InterruptedException error) {
                isInterrupted = true;
            }
        }
        if (isInterrupted) {
            Thread.currentThread().interrupt();
        }
    }

    @Override
    public void close() {
        threads.shutdown();
    }
}
