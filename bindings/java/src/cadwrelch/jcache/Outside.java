package cadwrelch.jcache;

import java.util.ArrayList;
import java.util.Collection;
import java.util.HashSet;
import java.util.LinkedHashSet;
import java.util.List;
import java.util.Map;
import java.util.Set;
import java.util.concurrent.Callable;
import javax.cache.Cache;
import javax.cache.configuration.CompleteConfiguration;
import javax.cache.integration.CacheLoader;
import javax.cache.integration.CacheLoaderException;
import javax.cache.integration.CacheWriter;
import javax.cache.integration.CacheWriterException;

/**
 * The loader and the writer of a cache (JSR 107, "Integration"). Each is asked with no lock held. What it answers or
 * throws, whatever that is, is noted in the calls that it was asked for, since these have to be committed.
 */
final class Outside<K, V> {
    /** How many loaders, writers and processors this thread is inside of. */
    private static final ThreadLocal<int[]> DEPTH = ThreadLocal.withInitial(() -> new int[1]);

    private final CacheLoader<K, V> loader;
    private final CacheWriter<K, V> writer;
    private final boolean readsThrough;
    private final boolean writesThrough;
    private final CacheContext<K, V> context;
    private final boolean keepsAbsent;
    final LoaderCounts loaderCounts = new LoaderCounts();

    /**
     * What a configuration names. A writer of super types is given keys and values of the cache's types, which it only
     * reads. That a get has found nothing is kept, or isn't.
     */
    @SuppressWarnings("unchecked")
    Outside(CompleteConfiguration<K, V> configuration, CacheContext<K, V> context, boolean keepsAbsent) {
        this.context = context;
        this.keepsAbsent = keepsAbsent;
        loader = Closing.create(configuration.getCacheLoaderFactory());
        writer = (CacheWriter<K, V>) Closing.create(configuration.getCacheWriterFactory(), loader);
        readsThrough = configuration.isReadThrough() && loader != null;
        writesThrough = configuration.isWriteThrough() && writer != null;
    }

    boolean hasLoader() {
        return loader != null;
    }

    boolean readsThrough() {
        return readsThrough;
    }

    boolean writesThrough() {
        return writesThrough;
    }

    void close() {
        Closing.quietly(loader, writer);
    }

    /** Whether this thread is inside of a loader, a writer or a processor of any cache. */
    static boolean isAsked() {
        return DEPTH.get()[0] > 0;
    }

    /** Does what a call does outside. */
    static <T> T ask(Callable<T> question) throws Exception {
        int[] depth = DEPTH.get();
        depth[0]++;
        try {
            return question.call();
        } finally {
            depth[0]--;
        }
    }

    @SuppressWarnings("unchecked")
    private static <K> K key(Call call) {
        return (K) call.key();
    }

    @SuppressWarnings("unchecked")
    private static <V> V value(Call call) {
        return (V) call.value;
    }

    // One key.

    /** Asks the loader for a call's key. */
    void load(Call call) {
        try {
            K key = key(call);
            call.setLoaded(kept(call, askLoader(() -> loader.load(key))), null);
        } catch (Throwable e) {
            call.setLoaded(null, e);
        }
    }

    /** Asks the writer to write a call's value, or, if it brings none, to delete its key. */
    void write(Call call) {
        try {
            K key = key(call);
            V value = value(call);
            ask(() -> {
                if (value != null) {
                    writer.write(new CacheEntry<>(key, value));
                } else {
                    writer.delete(key);
                }
                return null;
            });
            call.setWritten(null);
        } catch (Throwable e) {
            call.setWritten(e);
        }
    }

    private <T> T askLoader(Callable<T> question) throws Exception {
        return ask(context.hasStatistics ? () -> loaderCounts.count(question) : question);
    }

    /** What is kept of what the loader has found; null: nothing is. */
    private Object kept(Call call, V found) {
        return found == null && keepsAbsent && call.op == Native.GET ? Node.ABSENT
                : context.valueIn(call.key(), found);
    }

    // Many keys.

    /** Asks the loader once, for the keys of all these calls. Returns what it threw, or null. */
    Throwable loadAll(List<Call> calls) {
        try {
            Set<K> keys = new LinkedHashSet<>();
            calls.forEach(call -> keys.add(key(call)));
            Map<K, V> found = askLoader(() -> loader.loadAll(keys));
            if (found == null) {
                throw new CacheLoaderException("loadAll of the loader " + loader.getClass().getName()
                        + " has answered null: it has to be a map, which may be empty"
                        + Texts.at(context.cache.getName(), calls));
            }
            for (Call call : calls) {
                noteLoaded(call, found.get(key(call)));
            }
            return null;
        } catch (Throwable e) {
            for (int i = 0; i < calls.size(); i++) {
                calls.get(i).setLoaded(null, e);
            }
            return e;
        }
    }

    /** A value that can't be copied fails its own key. */
    private void noteLoaded(Call call, V found) {
        try {
            call.setLoaded(kept(call, found), null);
        } catch (RuntimeException e) {
            call.setLoaded(null, e);
        }
    }

    /**
     * Asks the writer once, to write the values of all these calls. Those that it leaves in its collection have failed.
     * Returns what it threw, or null.
     */
    Throwable writeAll(List<Call> calls) {
        Collection<Cache.Entry<? extends K, ? extends V>> batch = new ArrayList<>();
        calls.forEach(call -> batch.add(new CacheEntry<K, V>(key(call), value(call))));
        return noteWritten(calls, () -> writer.writeAll(batch), () -> {
            Set<Object> left = new HashSet<>();
            batch.forEach(entry -> left.add(entry.getKey()));
            return left;
        });
    }

    /**
     * Asks the writer once, to delete the keys of all these calls. Those that it leaves in its collection have failed.
     * Returns what it threw, or null.
     */
    Throwable deleteAll(List<Call> calls) {
        Collection<Object> batch = new LinkedHashSet<>();
        calls.forEach(call -> batch.add(call.key()));
        return noteWritten(calls, () -> writer.deleteAll(batch), () -> batch);
    }

    private static Throwable noteWritten(List<Call> calls, Runnable question, Callable<Collection<?>> leftKeys) {
        Throwable thrown = null;
        try {
            ask(() -> {
                question.run();
                return null;
            });
        } catch (Throwable e) {
            thrown = e;
        }
        try {
            Collection<?> left = leftKeys.call();
            for (Call call : calls) {
                call.setWritten(!left.contains(call.key()) ? null : thrown != null ? thrown : hasLeft(call));
            }
        } catch (Throwable e) {
            // The collection can't be read any more: nothing is known to be written.
            Throwable cause = thrown != null ? thrown : e;
            for (int i = 0; i < calls.size(); i++) {
                calls.get(i).setWritten(cause);
            }
            return cause;
        }
        return thrown;
    }

    private static CacheWriterException hasLeft(Call call) {
        return new CacheWriterException("the writer has left it in its collection" + call.where());
    }
}
