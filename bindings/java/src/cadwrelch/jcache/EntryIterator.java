package cadwrelch.jcache;

import java.util.Collections;
import java.util.Iterator;
import java.util.NoSuchElementException;
import java.util.function.Function;
import java.util.function.Predicate;
import javax.cache.Cache;

/**
 * The entries of a cache, stripe by stripe. The keys of a stripe are those that are cached when it is reached; an entry
 * that is gone since is left out. Each entry that is handed out counts as a get (JSR 107, {@code Cache.iterator}).
 */
final class EntryIterator<K, V> implements Iterator<Cache.Entry<K, V>> {
    private final CacheContext<K, V> context;
    /** What is kept of a key's value, if it is cached; null if it isn't. */
    private final Function<K, Object> present;
    private final Predicate<K> remover;
    private int nextStripe;
    private Iterator<Object> keys = Collections.emptyIterator();
    /** The entry to be handed out next, if it was looked for. */
    private Cache.Entry<K, V> next;
    private Cache.Entry<K, V> last;

    /** Iterates over what is present, by a look at each key, and removes by this call. */
    EntryIterator(CacheContext<K, V> context, Function<K, Object> present, Predicate<K> remover) {
        this.context = context;
        this.present = present;
        this.remover = remover;
    }

    /** The next entry, or null. */
    private Cache.Entry<K, V> advance() {
        for (;;) {
            while (keys.hasNext()) {
                K key = context.keyOut(keys.next());
                Object stored = present.apply(key);
                if (stored != null) {
                    return new CacheEntry<>(key, context.valueOut(stored));
                }
            }
            if (nextStripe == context.stripes().length) {
                return null;
            }
            keys = context.stripes()[nextStripe++].keys(false).iterator();
        }
    }

    @Override
    public boolean hasNext() {
        checkOpen();
        if (next == null) {
            next = advance();
        }
        return next != null;
    }

    @Override
    public Cache.Entry<K, V> next() {
        if (!hasNext()) {
            throw new NoSuchElementException("there is no further entry");
        }
        last = next;
        next = null;
        return last;
    }

    /** Removes the last entry from cache and store. */
    @Override
    public void remove() {
        checkOpen();
        if (last == null) {
            throw new IllegalStateException("next has to be called first");
        }
        remover.test(last.getKey());
        last = null;
    }

    private void checkOpen() {
        if (context.cache.isClosed()) {
            throw new IllegalStateException("the cache " + context.cache.getName() + " is closed");
        }
    }
}
