package cadwrelch.jcache;

import java.util.concurrent.Executor;
import java.util.concurrent.ExecutorService;
import java.util.concurrent.LinkedBlockingQueue;
import java.util.concurrent.RejectedExecutionException;
import java.util.concurrent.ThreadPoolExecutor;
import java.util.concurrent.TimeUnit;
import java.util.function.Consumer;

/** Loads entries again that are old, in the background, by a call of the cache. */
final class Refresher {
    private static final int THREADS = 4;
    private static final int IDLE_SECONDS = 10;
    /** So many reloads may wait for a thread. Further ones are left to the entry's next get. */
    private static final int WAITING_MAX = 1024;

    private final String cacheName;
    private final Consumer<Object> reload;
    private final Executor executor;
    /** The executor, if it is the cache's own; else null. */
    private final ExecutorService own;

    /** Reloads by this call, on the threads of an executor, or, if it is null, of the cache's own. */
    Refresher(String cacheName, Executor executor, Consumer<Object> reload) {
        this.cacheName = cacheName;
        this.reload = reload;
        own = executor == null ? threads(cacheName) : null;
        this.executor = executor == null ? own : executor;
    }

    private static ExecutorService threads(String cacheName) {
        ThreadPoolExecutor threads = new ThreadPoolExecutor(THREADS, THREADS, IDLE_SECONDS, TimeUnit.SECONDS,
                new LinkedBlockingQueue<>(WAITING_MAX), DaemonThreads.named("cadwrelch-refresh-" + cacheName));
        threads.allowCoreThreadTimeOut(true);
        return threads;
    }

    /** Has the entry of a key loaded again. It never fails: what goes wrong is logged. */
    void later(Object key) {
        try {
            executor.execute(() -> now(key));
        } catch (RejectedExecutionException e) {
            // The entry is still there, and a later get asks again.
        } catch (RuntimeException e) {
            Log.warning("the executor of the cache " + cacheName + " failed", e);
        }
    }

    private void now(Object key) {
        try {
            reload.accept(key);
        } catch (RuntimeException e) {
            Log.warning("an entry of the cache " + cacheName + " was not reloaded", e);
        }
    }

    /** What has not begun is given up. */
    void close() {
        if (own != null) {
            own.shutdown();
            ((ThreadPoolExecutor) own).getQueue().clear();
        }
    }
}
