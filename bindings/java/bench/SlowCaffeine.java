import com.github.benmanes.caffeine.cache.CacheWriter;
import com.github.benmanes.caffeine.cache.Caffeine;
import com.github.benmanes.caffeine.cache.LoadingCache;
import com.github.benmanes.caffeine.cache.RemovalCause;

/** Caffeine 2, a LoadingCache with a CacheWriter. */
final class SlowCaffeine implements Slow.Subject {
    private final LoadingCache<Integer, String> cache =
            Caffeine.newBuilder().maximumSize(100_000).writer(new Writer()).build(Slow::load);

    private static final class Writer implements CacheWriter<Integer, String> {
        @Override
        public void write(Integer key, String value) {
            Slow.write(key, value);
        }

        @Override
        public void delete(Integer key, String value, RemovalCause cause) {}
    }

    @Override
    public String get(Integer key) {
        return cache.get(key);
    }

    @Override
    public void put(Integer key, String value) {
        cache.put(key, value);
    }
}
