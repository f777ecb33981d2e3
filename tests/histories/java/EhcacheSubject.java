import cadwrelch.recording.CallRecorder;
import java.util.Collection;
import java.util.Map;
import javax.cache.Cache;
import javax.cache.integration.CacheLoader;
import javax.cache.integration.CacheWriter;
import net.sf.ehcache.CacheEntry;
import net.sf.ehcache.CacheManager;
import net.sf.ehcache.Ehcache;
import net.sf.ehcache.Element;
import net.sf.ehcache.Status;
import net.sf.ehcache.config.CacheConfiguration;
import net.sf.ehcache.config.Configuration;
import net.sf.ehcache.constructs.blocking.SelfPopulatingCache;
import net.sf.ehcache.writer.writebehind.operations.SingleOperationType;

/** Debian's Ehcache 2.6 in memory, by getWithLoader or as a SelfPopulatingCache, with its CacheWriter. */
public class EhcacheSubject {
    private final net.sf.ehcache.Cache cache = new net.sf.ehcache.Cache(new CacheConfiguration("c", 100_000).eternal(true));
    private final CacheManager manager;
    private final CallRecorder recorder;
    private final SelfPopulatingCache self;

    private EhcacheSubject(CallRecorder recorder, CacheLoader<String, String> loader, CacheWriter<String, String> writer,
            boolean isSelf) {
        this.recorder = recorder;
        Configuration configuration = new Configuration();
        configuration.setUpdateCheck(false);
        configuration.setName("m" + System.nanoTime());
        manager = new CacheManager(configuration);
        manager.addCache(cache);
        cache.registerCacheLoader(new Loader(loader));
        cache.registerCacheWriter(new Writer(writer));
        self = isSelf ? new SelfPopulatingCache(cache, key -> loader.load((String) key)) : null;
    }

    static Cache<String, String> of(CallRecorder recorder, CacheLoader<String, String> loader,
            CacheWriter<String, String> writer, Boolean isSelf) {
        return Subjects.of(new EhcacheSubject(recorder, loader, writer, isSelf));
    }

    public void close() {
        manager.shutdown();
    }

    private Ehcache puts() {
        return self == null ? cache : self;
    }

    public String get(Object key) {
        return Subjects.loaded(() -> {
            Element element = self == null ? cache.getWithLoader(key, null, recorder.currentCall()) : self.get(key);
            return element == null ? null : (String) element.getObjectValue();
        });
    }

    public boolean containsKey(Object key) {
        return cache.isKeyInCache(key);
    }

    public void put(Object key, Object value) {
        Subjects.written(() -> puts().putWithWriter(new Element(key, value)));
    }

    public boolean remove(Object key) {
        boolean[] isThere = {false};
        Subjects.written(() -> isThere[0] = puts().removeWithWriter(key));
        return isThere[0];
    }

    /** It loads on threads of its own. */
    private final class Loader implements net.sf.ehcache.loader.CacheLoader {
        private final CacheLoader<String, String> to;

        Loader(CacheLoader<String, String> to) {
            this.to = to;
        }

        @Override
        public Object load(Object key) {
            return to.load((String) key);
        }

        @Override
        public Object load(Object key, Object call) {
            return recorder.inCall((Long) call, () -> to.load((String) key));
        }

        @Override
        @SuppressWarnings("rawtypes")
        public Map loadAll(Collection keys) {
            throw new UnsupportedOperationException();
        }

        @Override
        @SuppressWarnings("rawtypes")
        public Map loadAll(Collection keys, Object call) {
            throw new UnsupportedOperationException();
        }

        @Override
        public String getName() {
            return "store";
        }

        @Override
        public net.sf.ehcache.loader.CacheLoader clone(Ehcache of) {
            return this;
        }

        @Override
        public void init() {}

        @Override
        public void dispose() {}

        @Override
        public Status getStatus() {
            return Status.STATUS_ALIVE;
        }
    }

    private static final class Writer implements net.sf.ehcache.writer.CacheWriter {
        private final CacheWriter<String, String> to;

        Writer(CacheWriter<String, String> to) {
            this.to = to;
        }

        @Override
        public void write(Element element) {
            to.write(Subjects.entry((String) element.getObjectKey(), (String) element.getObjectValue()));
        }

        @Override
        public void writeAll(Collection<Element> elements) {
            throw new UnsupportedOperationException();
        }

        @Override
        public void delete(CacheEntry entry) {
            to.delete(entry.getKey());
        }

        @Override
        public void deleteAll(Collection<CacheEntry> entries) {
            throw new UnsupportedOperationException();
        }

        @Override
        public void throwAway(Element element, SingleOperationType operation, RuntimeException failure) {
            throw failure;
        }

        @Override
        public net.sf.ehcache.writer.CacheWriter clone(Ehcache of) {
            return this;
        }

        @Override
        public void init() {}

        @Override
        public void dispose() {}
    }
}
