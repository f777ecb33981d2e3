import java.util.Collection;
import java.util.HashMap;
import java.util.Map;
import net.sf.ehcache.Cache;
import net.sf.ehcache.CacheEntry;
import net.sf.ehcache.CacheException;
import net.sf.ehcache.CacheManager;
import net.sf.ehcache.Ehcache;
import net.sf.ehcache.Element;
import net.sf.ehcache.Status;
import net.sf.ehcache.config.CacheConfiguration;
import net.sf.ehcache.config.Configuration;
import net.sf.ehcache.loader.CacheLoader;
import net.sf.ehcache.writer.CacheWriter;
import net.sf.ehcache.writer.writebehind.operations.SingleOperationType;

/** Ehcache 2 in memory alone, by reference, with a loader and a writer. It asks for no updates. */
final class EhcachePeer implements Peers.Peer {
    private final Cache cache = new Cache(new CacheConfiguration("peers", Peers.KEYS).eternal(true));

    EhcachePeer() {
        Configuration configuration = new Configuration();
        configuration.setUpdateCheck(false);
        new CacheManager(configuration).addCache(cache);
        cache.registerCacheLoader(new Loader());
        cache.registerCacheWriter(new Writer());
    }

    private static Object valueOf(Element element) {
        return element == null ? null : element.getObjectValue();
    }

    @Override
    public Object get(Peers.Bytes key) {
        return valueOf(cache.get(key));
    }

    @Override
    public void put(Peers.Bytes key, Peers.Bytes value) {
        cache.put(new Element(key, value));
    }

    @Override
    public Object getThrough(Peers.Bytes key) {
        return valueOf(cache.getWithLoader(key, null, null));
    }

    @Override
    public void putThrough(Peers.Bytes key, Peers.Bytes value) {
        cache.putWithWriter(new Element(key, value));
    }

    private static final class Loader implements CacheLoader {
        @Override
        public Object load(Object key) {
            return Peers.STORE.get(key);
        }

        @Override
        public Object load(Object key, Object argument) {
            return load(key);
        }

        @Override
        public Map loadAll(Collection keys) {
            Map<Object, Object> found = new HashMap<>();
            for (Object key : keys) {
                found.put(key, load(key));
            }
            return found;
        }

        @Override
        public Map loadAll(Collection keys, Object argument) {
            return loadAll(keys);
        }

        @Override
        public String getName() {
            return "store";
        }

        @Override
        public CacheLoader clone(Ehcache cache) {
            return this;
        }

        @Override
        public void init() {}

        @Override
        public void dispose() {}

        @Override
        public Status getStatus() {
            return Status.STATUS_ALIVE;
        }
    }

    private static final class Writer implements CacheWriter {
        @Override
        public void write(Element element) {
            Peers.STORE.put((Peers.Bytes) element.getObjectKey(), (Peers.Bytes) element.getObjectValue());
        }

        @Override
        public void writeAll(Collection<Element> elements) {
            elements.forEach(this::write);
        }

        @Override
        public void delete(CacheEntry entry) {
            Peers.STORE.remove(entry.getKey());
        }

        @Override
        public void deleteAll(Collection<CacheEntry> entries) {
            entries.forEach(this::delete);
        }

        @Override
        public void throwAway(Element element, SingleOperationType operation, RuntimeException failure) {
            throw new CacheException(failure);
        }

        @Override
        public CacheWriter clone(Ehcache cache) {
            return this;
        }

        @Override
        public void init() {}

        @Override
        public void dispose() {}
    }
}
