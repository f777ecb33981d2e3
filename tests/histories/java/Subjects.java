import java.lang.reflect.InvocationTargetException;
import java.lang.reflect.Method;
import java.lang.reflect.Proxy;
import java.util.concurrent.ConcurrentHashMap;
import java.util.concurrent.ConcurrentMap;
import java.util.function.Supplier;
import javax.cache.Cache;
import javax.cache.integration.CacheLoader;
import javax.cache.integration.CacheLoaderException;
import javax.cache.integration.CacheWriter;
import javax.cache.integration.CacheWriterException;

/** Caches made by hand, each as some methods of a Cache. */
final class Subjects {
    private Subjects() {}

    /** A cache whose methods are those of an object that have the same names and as many parameters. */
    @SuppressWarnings("unchecked")
    static Cache<String, String> of(Object subject) {
        return (Cache<String, String>) Proxy.newProxyInstance(Subjects.class.getClassLoader(), new Class<?>[] {Cache.class},
                (proxy, method, arguments) -> call(subject, method, arguments));
    }

    private static Object call(Object subject, Method method, Object[] arguments) throws Throwable {
        for (Method own : subject.getClass().getMethods()) {
            if (own.getName().equals(method.getName()) && own.getParameterCount() == method.getParameterCount()
                    && own.getDeclaringClass() != Object.class) {
                own.setAccessible(true);
                try {
                    return own.invoke(subject, arguments);
                } catch (InvocationTargetException e) {
                    throw e.getCause();
                }
            }
        }
        throw new UnsupportedOperationException(method.getName());
    }

    static <T> T loaded(Supplier<T> load) {
        try {
            return load.get();
        } catch (CacheLoaderException e) {
            throw e;
        } catch (RuntimeException e) {
            throw new CacheLoaderException(e);
        }
    }

    static void written(Runnable write) {
        try {
            write.run();
        } catch (CacheWriterException e) {
            throw e;
        } catch (RuntimeException e) {
            throw new CacheWriterException(e);
        }
    }

    static Cache.Entry<String, String> entry(String key, String value) {
        return new Cache.Entry<String, String>() {
            @Override
            public String getKey() {
                return key;
            }

            @Override
            public String getValue() {
                return value;
            }

            @Override
            public <T> T unwrap(Class<T> type) {
                return null;
            }
        };
    }

    /** It looks, loads, and then puts; it writes, and then puts. */
    public static class Naive {
        final ConcurrentMap<String, String> map = new ConcurrentHashMap<>();
        final CacheLoader<String, String> loader;
        final CacheWriter<String, String> writer;

        Naive(CacheLoader<String, String> loader, CacheWriter<String, String> writer) {
            this.loader = loader;
            this.writer = writer;
        }

        public String get(Object key) {
            String value = map.get(key);
            if (value == null) {
                value = loaded(() -> loader.load((String) key));
                if (value != null) {
                    map.put((String) key, value);
                }
            }
            return value;
        }

        public boolean containsKey(Object key) {
            return map.containsKey(key);
        }

        public void put(Object key, Object value) {
            written(() -> writer.write(entry((String) key, (String) value)));
            map.put((String) key, (String) value);
        }

        public boolean putIfAbsent(Object key, Object value) {
            if (map.containsKey(key)) {
                return false;
            }
            put(key, value);
            return true;
        }

        public boolean replace(Object key, Object old, Object value) {
            if (!old.equals(map.get(key))) {
                return false;
            }
            put(key, value);
            return true;
        }

        public boolean remove(Object key) {
            written(() -> writer.delete(key));
            return map.remove(key) != null;
        }
    }

    /** It loads within computeIfAbsent; it writes, and then puts, as most programs do. */
    public static final class ComputeIfAbsent extends Naive {
        ComputeIfAbsent(CacheLoader<String, String> loader, CacheWriter<String, String> writer) {
            super(loader, writer);
        }

        @Override
        public String get(Object key) {
            return loaded(() -> map.computeIfAbsent((String) key, loader::load));
        }
    }

    /** Each change is within ConcurrentHashMap.compute: a lock of the key, held while it asks. */
    public static final class Locked extends Naive {
        Locked(CacheLoader<String, String> loader, CacheWriter<String, String> writer) {
            super(loader, writer);
        }

        @Override
        public String get(Object key) {
            return loaded(() -> map.computeIfAbsent((String) key, loader::load));
        }

        private String write(String key, Object value) {
            written(() -> writer.write(entry(key, (String) value)));
            return (String) value;
        }

        @Override
        public void put(Object key, Object value) {
            map.compute((String) key, (same, old) -> write(same, value));
        }

        @Override
        public boolean putIfAbsent(Object key, Object value) {
            boolean[] done = {false};
            map.compute((String) key, (same, old) -> {
                done[0] = old == null;
                return done[0] ? write(same, value) : old;
            });
            return done[0];
        }

        @Override
        public boolean replace(Object key, Object from, Object value) {
            boolean[] done = {false};
            map.computeIfPresent((String) key, (same, old) -> {
                done[0] = old.equals(from);
                return done[0] ? write(same, value) : old;
            });
            return done[0];
        }

        @Override
        public boolean remove(Object key) {
            boolean[] done = {false};
            map.compute((String) key, (same, old) -> {
                done[0] = old != null;
                written(() -> writer.delete(same));
                return null;
            });
            return done[0];
        }
    }
}
