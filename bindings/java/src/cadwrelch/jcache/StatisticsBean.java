package cadwrelch.jcache;

import java.util.function.ToLongFunction;

/** The statistics of a cache (JSR 107, "Management"). The times are the means of those calls whose time was taken. */
final class StatisticsBean implements CadwrelchStatisticsMXBean {
    private static final float NANOS_A_MICRO = 1000;

    private final JcacheCache<?, ?> cache;

    StatisticsBean(JcacheCache<?, ?> cache) {
        this.cache = cache;
    }

    private long sum(ToLongFunction<Counts> of) {
        long sum = 0;
        for (Stripe stripe : cache.stripes()) {
            sum += stripe.count(of);
        }
        return sum;
    }

    private static float percentage(long part, long whole) {
        return whole == 0 ? 0 : 100f * part / whole;
    }

    private float micros(ToLongFunction<Counts> nanos, ToLongFunction<Counts> calls) {
        long timed = sum(calls);
        return timed == 0 ? 0 : sum(nanos) / NANOS_A_MICRO / timed;
    }

    @Override
    public void clear() {
        for (Stripe stripe : cache.stripes()) {
            stripe.clearCounts();
        }
        cache.loaderCounts().clear();
    }

    @Override
    public long getCacheHits() {
        return sum(it -> it.hits);
    }

    @Override
    public float getCacheHitPercentage() {
        return percentage(getCacheHits(), getCacheGets());
    }

    @Override
    public long getCacheMisses() {
        return sum(it -> it.misses);
    }

    @Override
    public float getCacheMissPercentage() {
        return percentage(getCacheMisses(), getCacheGets());
    }

    @Override
    public long getCacheGets() {
        return sum(it -> it.hits + it.misses);
    }

    @Override
    public long getCachePuts() {
        return sum(it -> it.puts);
    }

    @Override
    public long getCacheRemovals() {
        return sum(it -> it.removals);
    }

    @Override
    public long getCacheEvictions() {
        return sum(it -> it.evictions);
    }

    @Override
    public long getCacheSize() {
        long size = 0;
        for (Stripe stripe : cache.stripes()) {
            size += stripe.keys(false).size();
        }
        return size;
    }

    @Override
    public long getCacheExpirations() {
        return sum(it -> it.expirations);
    }

    @Override
    public long getLoaderCalls() {
        return cache.loaderCounts().calls.sum();
    }

    @Override
    public long getLoaderFailures() {
        return cache.loaderCounts().failures.sum();
    }

    @Override
    public float getAverageLoadTime() {
        long calls = getLoaderCalls();
        return calls == 0 ? 0 : cache.loaderCounts().nanos.sum() / NANOS_A_MICRO / calls;
    }

    @Override
    public float getAverageGetTime() {
        return micros(it -> it.gets.nanos, it -> it.gets.calls);
    }

    @Override
    public float getAveragePutTime() {
        return micros(it -> it.putTimes.nanos, it -> it.putTimes.calls);
    }

    @Override
    public float getAverageRemoveTime() {
        return micros(it -> it.removeTimes.nanos, it -> it.removeTimes.calls);
    }
}
