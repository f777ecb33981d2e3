import java.util.Collection;
import java.util.Map;
import net.sf.ehcache.Cache;
import net.sf.ehcache.CacheEntry;
import net.sf.ehcache.CacheManager;
import net.sf.ehcache.Ehcache;
import net.sf.ehcache.Element;
import net.sf.ehcache.Status;
import net.sf.ehcache.config.CacheConfiguration;
import net.sf.ehcache.config.Configuration;
import net.sf.ehcache.loader.CacheLoader;
import net.sf.ehcache.writer.CacheWriter;
import net.sf.ehcache.writer.writebehind.operations.SingleOperationType;

/** Ehcache 2 in memory alone, with a CacheLoader and a CacheWriter. It asks for no updates. */
final class SlowEhcache implements Slow.Subject {
    private final Cache cache = new Cache(new CacheConfiguration("slow", 100_000).eternal(true));

    SlowEhcache() {
        Configuration configuration = new Configuration();
        configuration.setUpdateCheck(false);
        new CacheManager(configuration).addCache(cache);
        cache.registerCacheLoader(new Loader());
        cache.registerCacheWriter(new Writer());
    }

    @Override
    public String get(Integer key) {
        Element element = cache.getWithLoader(key, null, null);
        return element == null ? null : (String) element.getObjectValue();
    }

    @Override
    public void put(Integer key, String value) {
        cache.putWithWriter(new Element(key, value));
    }

    /** No call has many keys. */
    private static final class Loader implements CacheLoader {
        @Override
        public Object load(Object key) {
            return Slow.load((Integer) key);
        }

        @Override
        public Object load(Object key, Object argument) {
            return load(key);
        }

        @Override
        public Map loadAll(Collection keys) {
            throw new UnsupportedOperationException();
        }

        @Override
        public Map loadAll(Collection keys, Object argument) {
            throw new UnsupportedOperationException();
        }

        @Override
        public String getName() {
            return "store";
        }

        @Override
        public CacheLoader clone(Ehcache of) {
            return this;
        }

        @Override
        public void init() {}

        @Override
        public void dispose() {}

        @Override
        public Status getStatus() {
            return Status.STATUS_ALIVE;
        }
    }

    /** No call has many keys, and none deletes. */
    private static final class Writer implements CacheWriter {
        @Override
        public void write(Element element) {
            Slow.write((Integer) element.getObjectKey(), (String) element.getObjectValue());
        }

        @Override
        public void writeAll(Collection<Element> elements) {
            throw new UnsupportedOperationException();
        }

        @Override
        public void delete(CacheEntry entry) {
            throw new UnsupportedOperationException();
        }

        @Override
        public void deleteAll(Collection<CacheEntry> entries) {
            throw new UnsupportedOperationException();
        }

        @Override
        public void throwAway(Element element, SingleOperationType operation, RuntimeException failure) {
            throw failure;
        }

        @Override
        public CacheWriter clone(Ehcache of) {
            return this;
        }

        @Override
        public void init() {}

        @Override
        public void dispose() {}
    }
}
