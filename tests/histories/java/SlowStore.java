import java.util.Collection;
import java.util.HashMap;
import java.util.Map;
import java.util.concurrent.ConcurrentHashMap;
import java.util.concurrent.ThreadLocalRandom;
import java.util.concurrent.atomic.AtomicInteger;
import java.util.concurrent.locks.LockSupport;
import javax.cache.Cache;
import javax.cache.integration.CacheLoader;
import javax.cache.integration.CacheWriter;

/** A map that takes its time. Of a hundred calls some fail, and of a hundred writes some are done and then fail. */
final class SlowStore implements CacheLoader<String, String>, CacheWriter<String, String> {
    /** What a call fails with. */
    static final class Failure extends RuntimeException {
        private static final long serialVersionUID = 1;
    }

    final Map<String, String> map = new ConcurrentHashMap<>();
    private final AtomicInteger calls = new AtomicInteger();
    private final int fail;
    private final int lie;

    SlowStore(int fail, int lie) {
        this.fail = fail;
        this.lie = lie;
    }

    private static void dawdle() {
        if (ThreadLocalRandom.current().nextInt(100) < 40) {
            LockSupport.parkNanos(ThreadLocalRandom.current().nextInt(20_000, 600_000));
        }
    }

    private static void failOf(int percent) {
        if (ThreadLocalRandom.current().nextInt(100) < percent) {
            throw new Failure();
        }
    }

    @Override
    public String load(String key) {
        calls.incrementAndGet();
        dawdle();
        failOf(fail);
        String value = map.get(key);
        dawdle();
        return value;
    }

    @Override
    public Map<String, String> loadAll(Iterable<? extends String> keys) {
        Map<String, String> found = new HashMap<>();
        dawdle();
        failOf(fail);
        for (String key : keys) {
            String value = map.get(key);
            if (value != null) {
                found.put(key, value);
            }
            dawdle();
        }
        return found;
    }

    private void change(String key, String value) {
        dawdle();
        failOf(fail);
        if (value == null) {
            map.remove(key);
        } else {
            map.put(key, value);
        }
        dawdle();
        failOf(lie);
    }

    @Override
    public void write(Cache.Entry<? extends String, ? extends String> entry) {
        change(entry.getKey(), entry.getValue());
    }

    @Override
    public void delete(Object key) {
        change((String) key, null);
    }

    @Override
    public void writeAll(Collection<Cache.Entry<? extends String, ? extends String>> entries) {
        for (var all = entries.iterator(); all.hasNext();) {
            write(all.next());
            all.remove();
        }
    }

    @Override
    public void deleteAll(Collection<?> keys) {
        for (var all = keys.iterator(); all.hasNext();) {
            delete(all.next());
            all.remove();
        }
    }
}
