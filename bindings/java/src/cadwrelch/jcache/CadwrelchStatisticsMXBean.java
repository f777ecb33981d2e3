package cadwrelch.jcache;

import javax.cache.management.CacheStatisticsMXBean;

/**
 * What the bean {@code CacheStatistics} of a cache says beside the statistics of JSR 107 ("Management"). All is since
 * the cache was made, or since its last {@link #clear}, while statistics are enabled. Nothing here asks a loader; each
 * stripe's lock is taken in turn.
 */
public interface CadwrelchStatisticsMXBean extends CacheStatisticsMXBean {
    /**
     * How many entries there are now, with those that have expired and that no call has met since.
     *
     * @return 0 to the capacity
     * @throws IllegalStateException if the cache is closed
     */
    long getCacheSize();

    /**
     * How many entries calls have found expired. {@link #getCacheEvictions} are those that had to make room.
     *
     * @return their count
     */
    long getCacheExpirations();

    /**
     * How often the loader was asked: for one key, or for many at once.
     *
     * @return how often it has answered or failed
     */
    long getLoaderCalls();

    /**
     * How often it has failed.
     *
     * @return how many of the calls of the loader have thrown
     */
    long getLoaderFailures();

    /**
     * The mean time that the loader took, also to fail.
     *
     * @return microseconds
     */
    float getAverageLoadTime();
}
