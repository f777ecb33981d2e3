import java.util.Collection;
import java.util.Map;
import javax.cache.Cache;
import javax.cache.Caching;
import javax.cache.configuration.MutableConfiguration;
import javax.cache.integration.CacheLoader;
import javax.cache.integration.CacheWriter;

/** The provider of this folder, as it is found on the class path. */
final class SlowProvider implements Slow.Subject {
    private final Cache<Integer, String> cache = Caching.getCachingProvider().getCacheManager().createCache("slow",
            new MutableConfiguration<Integer, String>()
                    .setReadThrough(true)
                    .setWriteThrough(true)
                    .setCacheLoaderFactory(Store::new)
                    .setCacheWriterFactory(Store::new));

    /** No call has many keys, and none deletes. */
    private static final class Store implements CacheLoader<Integer, String>, CacheWriter<Integer, String> {
        @Override
        public String load(Integer key) {
            return Slow.load(key);
        }

        @Override
        public Map<Integer, String> loadAll(Iterable<? extends Integer> keys) {
            throw new UnsupportedOperationException();
        }

        @Override
        public void write(Cache.Entry<? extends Integer, ? extends String> entry) {
            Slow.write(entry.getKey(), entry.getValue());
        }

        @Override
        public void writeAll(Collection<Cache.Entry<? extends Integer, ? extends String>> entries) {
            throw new UnsupportedOperationException();
        }

        @Override
        public void delete(Object key) {
            throw new UnsupportedOperationException();
        }

        @Override
        public void deleteAll(Collection<?> keys) {
            throw new UnsupportedOperationException();
        }
    }

    @Override
    public String get(Integer key) {
        return cache.get(key);
    }

    @Override
    public void put(Integer key, String value) {
        cache.put(key, value);
    }
}
