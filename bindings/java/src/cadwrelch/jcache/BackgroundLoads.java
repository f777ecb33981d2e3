package cadwrelch.jcache;

import java.util.LinkedHashSet;
import java.util.Set;
import java.util.concurrent.ExecutorService;
import java.util.concurrent.Executors;
import javax.cache.event.CacheEntryListenerException;
import javax.cache.integration.CompletionListener;

/** {@code loadAll}: it returns at once, and threads of the cache's own load (JSR 107, {@code Cache.loadAll}). */
final class BackgroundLoads<K, V> {
    private final CacheContext<K, V> context;
    private final String cacheName;
    /** Null until it is needed. */
    private ExecutorService threads;
    private boolean isClosed;

    BackgroundLoads(CacheContext<K, V> context, String cacheName) {
        this.context = context;
        this.cacheName = cacheName;
    }

    /**
     * Loads these keys, and tells the listener, if it isn't null. Without a loader there is nothing to do.
     *
     * @throws IllegalArgumentException if a key has too few or too many bytes
     */
    void begin(Set<? extends K> keys, boolean replaces, CompletionListener listener) {
        Set<K> all = new LinkedHashSet<>(keys);
        all.forEach(context.copier::lookup);
        if (context.outside.hasLoader()) {
            execute(() -> load(all, replaces, listener));
        } else if (listener != null) {
            listener.onCompletion();
        }
    }

    private void load(Set<K> keys, boolean replaces, CompletionListener listener) {
        try {
            BulkCalls.Result result =
                    BulkCalls.run(context, replaces ? Native.RELOAD : Native.LOAD, keys, key -> null);
            tell(listener, result.cause == null ? null : Faults.ofBackground(result.cause, result.where()));
        } catch (IllegalStateException | CacheEntryListenerException e) {
            tell(listener, e);
        } catch (RuntimeException | Error e) {
            // A thread of the cache's own has nobody to throw an error at: the listener is told of it.
            tell(listener, Faults.ofBackground(e, " (cache " + cacheName + ")"));
        }
    }

    private static void tell(CompletionListener listener, Exception failure) {
        if (listener == null) {
            return;
        }
        if (failure == null) {
            listener.onCompletion();
        } else {
            listener.onException(failure);
        }
    }

    private synchronized void execute(Runnable work) {
        if (isClosed) {
            throw new IllegalStateException("the cache " + cacheName + " is closed");
        }
        if (threads == null) {
            threads = Executors.newCachedThreadPool(DaemonThreads.named("cadwrelch-load-" + cacheName));
        }
        threads.execute(work);
    }

    /** Loads under way end; what has not begun finds the cache closed, and tells its listener. */
    synchronized void close() {
        isClosed = true;
        if (threads != null) {
            threads.shutdown();
        }
    }
}
