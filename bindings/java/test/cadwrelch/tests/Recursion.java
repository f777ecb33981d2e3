package cadwrelch.tests;

import static cadwrelch.tests.Check.equal;
import static cadwrelch.tests.Check.holds;

import java.util.Random;
import java.util.Set;
import java.util.TreeSet;
import javax.cache.Cache;
import cadwrelch.jcache.Inside;
import cadwrelch.tests.Check.Test;

/**
 * Calls at the very end of a stack. A recursion makes calls at each level until the stack overflows, wherever that is:
 * in a call, in the host, or in the core. Then no key is reserved. The property {@code recursion.seconds} says how long
 * it is tried.
 */
final class Recursion {
    private Recursion() {}

    private static final int SECONDS = Integer.getInteger("recursion.seconds", 2);
    private static final int KEYS = 64;

    private static final class Scene {
        final Cache<Integer, Integer> cache = Caches.through(new Store<>(), Integer.class, Integer.class);
        int deepest;

        /** Never returns: its stack ends. */
        void goDown(int depth) {
            deepest = Math.max(depth, deepest);
            cache.put(depth % KEYS, depth);
            cache.get(1000 + depth % KEYS);
            cache.invoke(depth % KEYS, (entry, arguments) -> {
                entry.setValue(1);
                return null;
            });
            goDown(depth + 1);
        }
    }

    @Test
    static void noKeyIsLeftWhenAStackOverflows() throws Exception {
        Scene scene = new Scene();
        Random random = new Random(1);
        Set<String> ends = new TreeSet<>();
        int overflows = 0;
        for (long until = System.nanoTime() + SECONDS * 1_000_000_000L; System.nanoTime() < until; overflows++) {
            ends.add(Background.start(200_000 + random.nextInt(4000) * 16, () -> {
                try {
                    scene.goDown(0);
                    return "none";
                } catch (Throwable e) {
                    return e.getClass().getSimpleName();
                }
            }).result());
        }
        System.out.println(overflows + " overflows, the deepest at " + scene.deepest);
        equal("each recursion ends by the error of its stack", Set.of("StackOverflowError"), ends);
        Background.start(() -> {
            for (int key = 0; key < KEYS; key++) {
                scene.cache.put(key, key);
                scene.cache.put(1000 + key, key);
            }
        }).result();
        equal("each key is free then, and nothing is left out", 2 * KEYS, Inside.compare(scene.cache));
        holds("calls were made at some depth", scene.deepest > 10);
    }
}
