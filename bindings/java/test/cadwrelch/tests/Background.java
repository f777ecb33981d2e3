package cadwrelch.tests;

import java.util.ArrayList;
import java.util.List;
import java.util.concurrent.Callable;
import java.util.concurrent.CountDownLatch;
import java.util.concurrent.ExecutionException;
import java.util.concurrent.FutureTask;
import java.util.concurrent.TimeUnit;
import java.util.concurrent.TimeoutException;

/** Work on threads of its own, with a limit to each wait: a call that hangs fails its test, and doesn't stop it. */
final class Background {
    /** Far more than any call takes on a machine that does much else. */
    private static final int SECONDS = 30;

    private Background() {}

    /** Work that was begun, and its thread. */
    static final class Work<T> {
        private final FutureTask<T> task;
        final Thread thread;

        private Work(Callable<T> body, long stack) {
            task = new FutureTask<>(body);
            thread = new Thread(null, task, "background", stack);
            thread.setDaemon(true);
        }

        /** Its result. What it has thrown is thrown here, and so is an AssertionError if it takes too long. */
        T result() throws Exception {
            try {
                return task.get(SECONDS, TimeUnit.SECONDS);
            } catch (ExecutionException e) {
                if (e.getCause() instanceof Error) {
                    throw (Error) e.getCause();
                }
                throw (Exception) e.getCause();
            } catch (TimeoutException e) {
                AssertionError late = new AssertionError("it still runs after " + SECONDS + " seconds");
                late.setStackTrace(thread.getStackTrace());
                throw late;
            }
        }

        /** Waits until it sleeps, for another call or at a gate. It may not end before. True if it isn't at a gate. */
        boolean awaitSleep() throws InterruptedException {
            long until = System.nanoTime() + TimeUnit.SECONDS.toNanos(SECONDS);
            for (;;) {
                // A gate's wait has a limit of time, that of a call for another one has none.
                Thread.State state = thread.getState();
                if (state == Thread.State.WAITING || state == Thread.State.TIMED_WAITING) {
                    return state == Thread.State.WAITING;
                }
                if (task.isDone() || System.nanoTime() > until) {
                    throw new AssertionError("it should wait, but is " + (task.isDone() ? "done" : state));
                }
                Thread.sleep(1);
            }
        }

        boolean isDone() {
            return task.isDone();
        }
    }

    /** Begins work on a new thread. */
    static <T> Work<T> start(Callable<T> body) {
        return start(0, body);
    }

    /** The same, of a body without a result. */
    static Work<Void> start(Check.Body body) {
        return start(0, () -> {
            try {
                body.run();
            } catch (Exception | Error e) {
                throw e;
            } catch (Throwable e) {
                throw new AssertionError(e);
            }
            return null;
        });
    }

    /** The same, on a stack of so many bytes; 0 leaves it to the virtual machine. */
    static <T> Work<T> start(long stack, Callable<T> body) {
        Work<T> work = new Work<>(body, stack);
        work.thread.start();
        return work;
    }

    /** As many threads that do the same at once. */
    static <T> List<Work<T>> startMany(int threads, Callable<T> body) {
        List<Work<T>> all = new ArrayList<>();
        for (int i = 0; i < threads; i++) {
            all.add(start(body));
        }
        return all;
    }

    /** The results of all. */
    static <T> List<T> results(List<Work<T>> all) throws Exception {
        List<T> results = new ArrayList<>();
        for (Work<T> work : all) {
            results.add(work.result());
        }
        return results;
    }

    /** Waits for a latch, at most as long as for work. */
    static void await(CountDownLatch latch) {
        try {
            if (!latch.await(SECONDS, TimeUnit.SECONDS)) {
                throw new AssertionError("nobody came within " + SECONDS + " seconds");
            }
        } catch (InterruptedException e) {
            Thread.currentThread().interrupt();
            throw new IllegalStateException(e);
        }
    }
}
