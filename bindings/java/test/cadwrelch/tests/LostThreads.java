package cadwrelch.tests;

import static cadwrelch.tests.Check.equal;
import static cadwrelch.tests.Check.holds;
import static cadwrelch.tests.Check.same;
import static cadwrelch.tests.Check.thrown;

import java.util.List;
import java.util.Map;
import java.util.Set;
import javax.cache.Cache;
import javax.cache.CacheException;
import cadwrelch.jcache.Inside;
import cadwrelch.tests.Background.Work;
import cadwrelch.tests.Check.Test;

/**
 * Calls that lose their thread in the middle: by an error, by an interrupt, by a stop. None leaves its key reserved.
 */
final class LostThreads {
    private LostThreads() {}

    /** A store with one entry, and a cache over it. */
    private static final class Scene {
        final Store<Integer, String> store = new Store<>();
        final Cache<Integer, String> cache = Caches.through(store, Integer.class, String.class);

        Scene() {
            store.map.put(1, "one");
        }

        /** That the store works again, the keys are free, and nothing is left out. */
        void checkFree() throws Exception {
            store.fault = null;
            Background.start(() -> cache.putAll(Map.of(1, "a", 2, "b"))).result();
            equal("the keys are free then", Map.of(1, "a", 2, "b"), cache.getAll(Set.of(1, 2)));
            equal("and nothing is left out", 2, Inside.compare(cache));
        }
    }

    /** An error of no known class. */
    private static final class OwnError extends Error {
        private static final long serialVersionUID = 1;
    }

    private static final List<Error> ERRORS =
            List.of(new OwnError(), new OutOfMemoryError("not really"), new StackOverflowError(), new ThreadDeath(),
                    new NoClassDefFoundError("a"));

    @Test
    static void anErrorOfALoader() throws Exception {
        for (Error error : ERRORS) {
            Scene scene = new Scene();
            scene.store.fault = error;
            same("an error of a loader is thrown as it is", error,
                    thrown("by get", Error.class, () -> scene.cache.get(1)));
            same("also of many keys", error, thrown("by getAll", Error.class, () -> scene.cache.getAll(Set.of(1, 2))));
            scene.checkFree();
        }
    }

    @Test
    static void anErrorOfAWriter() throws Exception {
        for (Error error : ERRORS) {
            Scene scene = new Scene();
            scene.store.fault = error;
            same("an error of a writer is thrown as it is", error,
                    thrown("by put", Error.class, () -> scene.cache.put(1, "x")));
            same("and by remove", error, thrown("by remove", Error.class, () -> scene.cache.remove(1)));
            same("also of many keys", error,
                    thrown("by putAll", Error.class, () -> scene.cache.putAll(Map.of(1, "x", 2, "y"))));
            same("and by removeAll", error,
                    thrown("by removeAll", Error.class, () -> scene.cache.removeAll(Set.of(1, 2))));
            holds("nothing is cached", !scene.cache.containsKey(1) && !scene.cache.containsKey(2));
            scene.checkFree();
        }
    }

    @Test
    static void anErrorOfAProcessor() throws Exception {
        for (Error error : ERRORS) {
            Scene scene = new Scene();
            same("an error of a processor is thrown as it is", error,
                    thrown("by invoke", Error.class, () -> scene.cache.invoke(1, (entry, arguments) -> {
                        entry.setValue("x");
                        throw error;
                    })));
            holds("nothing is cached", !scene.cache.containsKey(1));
            scene.store.fault = error;
            same("and an error of its loader", error,
                    thrown("by invoke", Error.class,
                            () -> scene.cache.invoke(1, (entry, arguments) -> entry.getValue())));
            scene.checkFree();
        }
    }

    @Test
    static void whoJoinedALoadThatEndsByAnErrorFails() throws Exception {
        Scene scene = new Scene();
        Store.Gate gate = scene.store.shut();
        Work<String> first = Background.start(() -> scene.cache.get(1));
        gate.awaitCall();
        Work<String> second = Background.start(() -> scene.cache.get(1));
        second.awaitSleep();
        scene.store.fault = new OwnError();
        scene.store.open();
        thrown("the call that loaded has the error", OwnError.class, first::result);
        thrown("and who has joined it fails, too", Throwable.class, second::result);
        scene.checkFree();
    }

    @Test
    static void anInterruptWhileALoaderRuns() throws Exception {
        Scene scene = new Scene();
        Store.Gate gate = scene.store.shut();
        Work<String> get = Background.start(() -> scene.cache.get(1));
        gate.awaitCall();
        get.thread.interrupt();
        thrown("a loader that an interrupt ends has failed", CacheException.class, get::result);
        scene.store.open();
        scene.checkFree();
    }

    @Test
    static void anInterruptWhileACallWaits() throws Exception {
        Scene scene = new Scene();
        Store.Gate gate = scene.store.shut();
        Work<String> first = Background.start(() -> scene.cache.get(1));
        gate.awaitCall();
        Work<Boolean> second = Background.start(() -> {
            scene.cache.get(1);
            return Thread.currentThread().isInterrupted();
        });
        second.awaitSleep();
        second.thread.interrupt();
        scene.store.open();
        equal("a call that waits goes on waiting when its thread is interrupted", "one", first.result());
        holds("and its thread is interrupted still", second.result());
        scene.checkFree();
    }

    /** Thread.stop has no successor, and later virtual machines refuse it: then nothing is checked. */
    @Test
    @SuppressWarnings({"deprecation", "removal"})
    static void aThreadThatIsStoppedInALoader() throws Exception {
        Scene scene = new Scene();
        Store.Gate gate = scene.store.shut();
        Work<String> get = Background.start(() -> scene.cache.get(1));
        gate.awaitCall();
        try {
            get.thread.stop();
            thrown("a thread that is stopped in a loader ends", ThreadDeath.class, get::result);
        } catch (UnsupportedOperationException e) {
            holds("this virtual machine stops no thread", true);
        }
        scene.store.open();
        scene.checkFree();
    }

    @Test
    static void aFirstPhaseThatThrowsLeavesNothingOut() {
        IllegalStateException fault = new IllegalStateException("broken");
        same("what a first phase throws is passed on, and its session is given back", fault,
                thrown("a first phase throws", IllegalStateException.class, () -> Inside.beginAtBrokenDesk(fault)));
    }
}
