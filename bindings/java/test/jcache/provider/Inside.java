package cadwrelch.jcache;

import java.util.List;
import javax.cache.Cache;

/** What tests see of a cache from inside. */
public final class Inside {
    private Inside() {}

    /**
     * Compares each stripe with its core, while no call is under way: each key that either has is the other's, with its
     * value; no key is reserved or joined; nothing that a call takes for its time is out. Throws if it isn't so.
     *
     * @return how many entries are cached
     */
    public static int compare(Cache<?, ?> cache) {
        return verify(cache, new long[5]);
    }

    /** The same, and then hits, misses, puts and removals, as the core has counted them. */
    public static List<Long> coreCounts(Cache<?, ?> cache) {
        long[] core = new long[5];
        verify(cache, core);
        return List.of(core[0], core[1], core[2], core[3]);
    }

    /** Shows the statistics of a cache, as its manager does beside a close. */
    public static void showStatistics(Cache<?, ?> cache) {
        Management.showStatistics((JcacheCache<?, ?>) cache, true);
    }

    /**
     * Begins a call at a stripe whose first phase throws this. Throws that, or IllegalStateException if something is
     * out then.
     */
    public static void beginAtBrokenDesk(RuntimeException fault) {
        KeyedDesk desk = new BrokenDesk(fault);
        try {
            desk.begin(new Call(Native.GET, new KeyLookup("key", 0, null)), null);
        } finally {
            desk.verify();
        }
    }

    private static int verify(Cache<?, ?> cache, long[] core) {
        int cached = 0;
        for (Stripe stripe : ((JcacheCache<?, ?>) cache).stripes()) {
            stripe.lock.lock();
            try {
                cached += stripe.verify(core, new long[5]);
            } finally {
                stripe.lock.unlock();
            }
        }
        return cached;
    }
}
