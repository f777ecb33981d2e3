import cadwrelch.recording.CallRecorder;
import com.github.benmanes.caffeine.cache.Caffeine;
import com.github.benmanes.caffeine.cache.LoadingCache;
import com.github.benmanes.caffeine.cache.RemovalCause;
import javax.cache.Cache;
import javax.cache.integration.CacheLoader;
import javax.cache.integration.CacheLoaderException;
import javax.cache.integration.CacheWriter;
import javax.cache.integration.CacheWriterException;

/** Debian's Caffeine 2.6, a LoadingCache with its CacheWriter. */
public class CaffeineSubject {
    private final LoadingCache<String, String> cache;

    private CaffeineSubject(CacheLoader<String, String> loader, CacheWriter<String, String> writer) {
        cache = Caffeine.newBuilder().executor(Runnable::run).writer(new Writer(writer)).build(loader::load);
    }

    static Cache<String, String> of(CallRecorder recorder, CacheLoader<String, String> loader,
            CacheWriter<String, String> writer, Boolean any) {
        return Subjects.of(new CaffeineSubject(loader, writer));
    }

    private static final class Writer implements com.github.benmanes.caffeine.cache.CacheWriter<String, String> {
        private final CacheWriter<String, String> to;

        Writer(CacheWriter<String, String> to) {
            this.to = to;
        }

        @Override
        public void write(String key, String value) {
            Subjects.written(() -> to.write(Subjects.entry(key, value)));
        }

        @Override
        public void delete(String key, String value, RemovalCause cause) {
            if (!cause.wasEvicted()) {
                Subjects.written(() -> to.delete(key));
            }
        }
    }

    public String get(Object key) {
        try {
            return cache.get((String) key);
        } catch (CacheWriterException e) {
            throw e;
        } catch (RuntimeException e) {
            throw new CacheLoaderException(e);
        }
    }

    public boolean containsKey(Object key) {
        return cache.asMap().containsKey(key);
    }

    public void put(Object key, Object value) {
        cache.put((String) key, (String) value);
    }

    public boolean putIfAbsent(Object key, Object value) {
        return cache.asMap().putIfAbsent((String) key, (String) value) == null;
    }

    public boolean replace(Object key, Object old, Object value) {
        return cache.asMap().replace((String) key, (String) old, (String) value);
    }

    public boolean remove(Object key) {
        return cache.asMap().remove(key) != null;
    }
}
