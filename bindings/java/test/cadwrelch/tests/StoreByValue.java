package cadwrelch.tests;

import static cadwrelch.tests.Check.equal;
import static cadwrelch.tests.Check.holds;
import static cadwrelch.tests.Check.same;
import static cadwrelch.tests.Check.thrown;

import java.io.ByteArrayOutputStream;
import java.io.IOException;
import java.io.InputStream;
import java.io.ObjectOutputStream;
import java.io.Serializable;
import java.lang.reflect.Constructor;
import java.lang.reflect.InvocationHandler;
import java.lang.reflect.Method;
import java.lang.reflect.Proxy;
import java.net.URI;
import java.util.ArrayList;
import java.util.Arrays;
import java.util.Date;
import java.util.HashMap;
import java.util.HashSet;
import java.util.LinkedHashMap;
import java.util.List;
import java.util.Map;
import java.util.Set;
import javax.cache.Cache;
import javax.cache.CacheException;
import javax.cache.CacheManager;
import javax.cache.Caching;
import javax.cache.configuration.MutableConfiguration;
import cadwrelch.tests.Check.Test;

/**
 * Store by value, the default: what a cache has is a copy, and what it hands out another one. And store by reference.
 */
final class StoreByValue {
    private StoreByValue() {}

    /** A key and a value that can be changed. */
    private static final class Point implements Serializable {
        private static final long serialVersionUID = 1;
        int x;

        Point(int x) {
            this.x = x;
        }

        @Override
        public boolean equals(Object other) {
            return other instanceof Point && ((Point) other).x == x;
        }

        @Override
        public int hashCode() {
            return x;
        }

        @Override
        public String toString() {
            return "Point " + x;
        }
    }

    private static Cache<Date, Date> dates() {
        return Caches.create(new MutableConfiguration<>());
    }

    @Test
    static void copiesWhatIsPut() {
        Cache<Date, Date> cache = dates();
        Date key = new Date(1);
        Date value = new Date(2);
        cache.put(key, value);
        value.setTime(9);
        equal("a value that is changed after its put isn't changed in the cache", new Date(2), cache.get(new Date(1)));
        key.setTime(8);
        holds("nor is a key", cache.containsKey(new Date(1)) && !cache.containsKey(key));
        Date replaced = new Date(3);
        cache.replace(new Date(1), replaced);
        replaced.setTime(1);
        equal("nor a value of replace", new Date(3), cache.get(new Date(1)));
        Date again = new Date(4);
        equal("getAndPut answers the value before", new Date(3), cache.getAndPut(new Date(1), again));
        again.setTime(0);
        equal("nor a value of getAndPut", new Date(4), cache.getAndReplace(new Date(1), new Date(5)));
        equal("replace(key, old, new) compares copies by equals", true,
                cache.replace(new Date(1), new Date(5), new Date(6)));
    }

    @Test
    static void copiesWhatItHandsOut() {
        Cache<Date, Date> cache = dates();
        cache.put(new Date(1), new Date(2));
        cache.get(new Date(1)).setTime(7);
        equal("a value that get handed out may be changed", new Date(2), cache.get(new Date(1)));
        holds("each get hands out a copy of its own", cache.get(new Date(1)) != cache.get(new Date(1)));
        cache.getAll(Set.of(new Date(1))).values().forEach(value -> value.setTime(7));
        equal("and one of getAll", new Date(2), cache.get(new Date(1)));
        for (Cache.Entry<Date, Date> entry : cache) {
            entry.getKey().setTime(77);
            entry.getValue().setTime(78);
        }
        equal("and key and value of an iterator", new Date(2), cache.get(new Date(1)));
    }

    @Test
    static void copiesWhatAProcessorHas() {
        Cache<Date, Date> cache = dates();
        cache.put(new Date(1), new Date(2));
        cache.invoke(new Date(1), (entry, arguments) -> {
            entry.getValue().setTime(99);
            return null;
        });
        equal("a value that a processor changes without setValue isn't changed", new Date(2), cache.get(new Date(1)));
        Date set = new Date(6);
        cache.invoke(new Date(1), (entry, arguments) -> {
            entry.setValue(set);
            return null;
        });
        set.setTime(0);
        equal("nor is one that is changed after setValue", new Date(6), cache.get(new Date(1)));
    }

    @Test
    static void findsKeysThatAreCopies() {
        Cache<Point, Point> cache = Caches.create(new MutableConfiguration<>());
        Point point = new Point(1);
        cache.put(point, point);
        point.x = 2;
        equal("a key is found by equals", new Point(1), cache.get(new Point(1)));
        equal("and not by what has become of its object", null, cache.get(point));
    }

    @Test
    static void equalKeysAreOneKeyThoughTheirBytesDiffer() throws IOException {
        Map<String, Integer> one = new HashMap<>(Map.of("a", 1, "b", 2));
        Map<String, Integer> roomy = new LinkedHashMap<>();
        roomy.put("b", 2);
        roomy.put("a", 1);
        checkOneKey("maps", one, roomy);
        String text = "k";
        checkOneKey("lists", new ArrayList<>(List.of(text, text)), new ArrayList<>(List.of(text, new String("k"))));
        checkOneKey("lists of other classes", Arrays.asList("a"), new ArrayList<>(List.of("a")));
        checkOneKey("sets", new HashSet<>(List.of("a", "b")), new HashSet<>(Arrays.asList("b", "a", "c")) {
            private static final long serialVersionUID = 1;

            {
                remove("c");
            }
        });
    }

    private static void checkOneKey(String what, Object one, Object other) throws IOException {
        holds("the " + what + " are equal, and aren't serialized alike",
                one.equals(other) && !Arrays.equals(bytes(one), bytes(other)));
        Cache<Object, String> cache = Caches.create(new MutableConfiguration<>());
        cache.put(one, "first");
        cache.put(other, "second");
        equal("so they are one key", "second", cache.get(one));
        holds("which is removed once", cache.remove(other) && !cache.containsKey(one));
    }

    private static byte[] bytes(Object it) throws IOException {
        ByteArrayOutputStream bytes = new ByteArrayOutputStream();
        new ObjectOutputStream(bytes).writeObject(it);
        return bytes.toByteArray();
    }

    /** What a proxy is. */
    private interface Figure {}

    /** What a proxy calls. */
    private static final class Handler implements InvocationHandler, Serializable {
        private static final long serialVersionUID = 1;

        @Override
        public Object invoke(Object proxy, Method method, Object[] arguments) {
            return null;
        }
    }

    /** A loader with two classes of its own, under names that its parent has, too. */
    private static final class OwnPoints extends ClassLoader {
        private static final Set<String> OWN = Set.of(Point.class.getName(), Figure.class.getName());

        OwnPoints() {
            super(StoreByValue.class.getClassLoader());
        }

        @Override
        protected Class<?> loadClass(String name, boolean resolve) throws ClassNotFoundException {
            if (!OWN.contains(name)) {
                return super.loadClass(name, resolve);
            }
            synchronized (getClassLoadingLock(name)) {
                Class<?> loaded = findLoadedClass(name);
                return loaded != null ? loaded : define(name);
            }
        }

        private Class<?> define(String name) throws ClassNotFoundException {
            try (InputStream file = getParent().getResourceAsStream(name.replace('.', '/') + ".class")) {
                byte[] bytes = file.readAllBytes();
                return defineClass(name, bytes, 0, bytes.length);
            } catch (IOException e) {
                throw new ClassNotFoundException(name, e);
            }
        }

        Object point(int x) throws ReflectiveOperationException {
            Constructor<?> constructor = loadClass(Point.class.getName()).getDeclaredConstructor(int.class);
            constructor.setAccessible(true);
            return constructor.newInstance(x);
        }

        Object figure() throws ReflectiveOperationException {
            Class<?>[] interfaces = {loadClass(Figure.class.getName())};
            return Proxy.newProxyInstance(this, interfaces, new Handler());
        }
    }

    @Test
    static void copiesAreOfTheManagersClassLoader() throws ReflectiveOperationException {
        OwnPoints loader = new OwnPoints();
        CacheManager manager = Caching.getCachingProvider().getCacheManager(URI.create("own-points"), loader);
        Cache<Object, Object> cache = Caches.create(manager, new MutableConfiguration<>());
        cache.put(loader.point(1), loader.point(2));
        same("a value's copy is of the class that the manager's class loader has", loader,
                cache.get(loader.point(1)).getClass().getClassLoader());
        same("and so is a key's", loader, cache.iterator().next().getKey().getClass().getClassLoader());
        cache.put(loader.point(1), loader.figure());
        same("and a proxy's", loader, cache.get(loader.point(1)).getClass().getClassLoader());
        manager.close();
        Cache<Object, Object> others = Caches.create(new MutableConfiguration<>());
        others.put(1, loader.point(3));
        equal("also of a value whose class is of another loader", new Point(3), others.get(1));
    }

    @Test
    static void refusesWhatCannotBeCopied() throws Exception {
        Cache<Object, Object> cache = Caches.create(new MutableConfiguration<>());
        thrown("a value that isn't serializable is CacheException", CacheException.class,
                () -> cache.put("k", new Object()));
        thrown("and so is a key", CacheException.class, () -> cache.put(new Object(), "v"));
        holds("nothing is cached", !cache.iterator().hasNext());
        Background.start(() -> cache.put("k", "v")).result();
        equal("and the key is free", "v", cache.get("k"));
    }

    @Test
    static void keepsReferencesIfItIsToldTo() {
        Cache<Integer, Point> cache = Caches.create(new MutableConfiguration<Integer, Point>().setStoreByValue(false));
        Point point = new Point(1);
        cache.put(1, point);
        same("store by reference hands out what was put", point, cache.get(1));
        same("also by an iterator", point, cache.iterator().next().getValue());
        cache.invoke(1, (entry, arguments) -> {
            same("and to a processor", point, entry.getValue());
            return null;
        });
        same("getAndPut answers the object that was put", point, cache.getAndPut(1, new Point(2)));
        Cache<Object, Object> any = Caches.create(new MutableConfiguration<>().setStoreByValue(false));
        Object plain = new Object();
        any.put(plain, plain);
        same("keys and values need not be serializable", plain, any.get(plain));
    }
}
