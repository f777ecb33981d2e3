package cadwrelch.tests;

import static cadwrelch.tests.Check.equal;
import static cadwrelch.tests.Check.holds;

import java.util.ArrayList;
import java.util.List;
import java.util.Map;
import java.util.Random;
import java.util.Set;
import java.util.function.Supplier;
import javax.cache.Cache;
import cadwrelch.jcache.Inside;
import cadwrelch.tests.Check.Test;

/**
 * Calls of a virtual machine whose heap is full, so that any allocation may fail: of the host, of the loader, of the
 * test. It is to run with a small heap (-Xmx). The property {@code memory.seconds} says how long it is tried.
 */
final class ShortMemory {
    private ShortMemory() {}

    private static final int SECONDS = Integer.getInteger("memory.seconds", 2);
    private static final int KEYS = 64;

    /** A cache over a store, and where its values come from. */
    private static final class Scene<V> {
        final Cache<Integer, V> cache;
        final Supplier<V> value;
        int calls;
        int faults;

        Scene(Cache<Integer, V> cache, Supplier<V> value) {
            this.cache = cache;
            this.value = value;
        }

        /** Makes calls with nearly all of the heap taken, again and again. */
        void callWithLittleMemory(Random random, long until) {
            List<byte[]> hog = new ArrayList<>(100_000);
            fill(hog, 1 << 16);
            while (System.nanoTime() < until || faults == 0) {
                fill(hog, 1 << 9);
                // What is left is some hundred bytes or some thousand, so that each allocation of the host is the one
                // that fails now and then.
                for (int i = random.nextInt(12); i > 0; i--) {
                    hog.remove(hog.size() - 1);
                }
                callOften(random);
            }
        }

        private void callOften(Random random) {
            for (int i = 0; i < 20; i++) {
                try {
                    call(random);
                    calls++;
                } catch (VirtualMachineError | RuntimeException e) {
                    faults++;
                }
            }
        }

        private static void fill(List<byte[]> hog, int size) {
            try {
                for (;;) {
                    hog.add(new byte[size]);
                }
            } catch (OutOfMemoryError e) {
                // It is full.
            }
        }

        private void call(Random random) {
            int key = random.nextInt(KEYS);
            switch (random.nextInt(6)) {
                case 0:
                    cache.get(key);
                    break;
                case 1:
                    cache.put(key, value.get());
                    break;
                case 2:
                    cache.remove(key);
                    break;
                case 3:
                    cache.getAll(Set.of(key, key + 1, key + 2));
                    break;
                case 4:
                    cache.putAll(Map.of(key, value.get(), key + 1, value.get()));
                    break;
                default:
                    cache.invoke(key, (entry, arguments) -> {
                        entry.setValue(value.get());
                        return null;
                    });
            }
        }
    }

    private static <V> void check(Cache<Integer, V> cache, Supplier<V> value) throws Exception {
        Scene<V> scene = new Scene<>(cache, value);
        Random random = new Random(1);
        // A class whose initialization fails stays unusable, and so do classes of the platform: all are initialized
        // before.
        for (int i = 0; i < 5000; i++) {
            scene.call(random);
        }
        V last = value.get();
        Background.start(() -> scene.callWithLittleMemory(random, System.nanoTime() + SECONDS * 1_000_000_000L))
                .result();
        System.out.println(scene.calls + " calls ended, and " + scene.faults + " found no memory");
        holds("memory was short now and then", scene.faults > 0);
        Background.start(() -> {
            for (int key = 0; key < KEYS + 3; key++) {
                cache.put(key, last);
            }
        }).result();
        equal("each key is free then, and nothing is left out", KEYS + 3, Inside.compare(cache));
    }

    @Test
    static void noKeyIsLeftOfValuesThatAreSerialized() throws Exception {
        check(Caches.through(new Store<>()), () -> new byte[64]);
    }

    @Test
    static void noKeyIsLeftOfStrings() throws Exception {
        check(Caches.through(new Store<>(), Integer.class, String.class), () -> "v".repeat(64));
    }
}
