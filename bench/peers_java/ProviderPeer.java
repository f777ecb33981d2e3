import java.net.URI;
import java.util.Collection;
import java.util.Map;
import java.util.Properties;
import javax.cache.Cache;
import javax.cache.CacheManager;
import javax.cache.Caching;
import javax.cache.configuration.MutableConfiguration;
import javax.cache.integration.CacheLoader;
import javax.cache.integration.CacheWriter;

/** The {@code javax.cache} provider of bindings/java, by reference, with a loader and a writer: 16 stripes with room for all keys. */
final class ProviderPeer implements Peers.Peer {
    private final Cache<Peers.Bytes, Peers.Bytes> plain;
    private final Cache<Peers.Bytes, Peers.Bytes> through;

    ProviderPeer() {
        Properties properties = new Properties();
        properties.setProperty("cadwrelch.stripes", "16");
        properties.setProperty("cadwrelch.capacity", String.valueOf(16 * Peers.KEYS));
        CacheManager manager = Caching.getCachingProvider().getCacheManager(URI.create("peers"), null, properties);
        plain = manager.createCache("plain", byReference());
        through = manager.createCache("through", byReference()
                .setReadThrough(true)
                .setWriteThrough(true)
                .setCacheLoaderFactory(Store::new)
                .setCacheWriterFactory(Store::new));
    }

    private static MutableConfiguration<Peers.Bytes, Peers.Bytes> byReference() {
        return new MutableConfiguration<Peers.Bytes, Peers.Bytes>().setStoreByValue(false);
    }

    @Override
    public Object get(Peers.Bytes key) {
        return plain.get(key);
    }

    @Override
    public void put(Peers.Bytes key, Peers.Bytes value) {
        plain.put(key, value);
    }

    @Override
    public Object getThrough(Peers.Bytes key) {
        return through.get(key);
    }

    @Override
    public void putThrough(Peers.Bytes key, Peers.Bytes value) {
        through.put(key, value);
    }

    /** The loader and the writer. No call has many keys. */
    private static final class Store implements CacheLoader<Peers.Bytes, Peers.Bytes>, CacheWriter<Peers.Bytes, Peers.Bytes> {
        @Override
        public Peers.Bytes load(Peers.Bytes key) {
            return Peers.STORE.get(key);
        }

        @Override
        public Map<Peers.Bytes, Peers.Bytes> loadAll(Iterable<? extends Peers.Bytes> keys) {
            throw new UnsupportedOperationException();
        }

        @Override
        public void write(Cache.Entry<? extends Peers.Bytes, ? extends Peers.Bytes> entry) {
            Peers.STORE.put(entry.getKey(), entry.getValue());
        }

        @Override
        public void writeAll(Collection<Cache.Entry<? extends Peers.Bytes, ? extends Peers.Bytes>> entries) {
            throw new UnsupportedOperationException();
        }

        @Override
        public void delete(Object key) {
            Peers.STORE.remove(key);
        }

        @Override
        public void deleteAll(Collection<?> keys) {
            throw new UnsupportedOperationException();
        }
    }
}
