package cadwrelch.tests;

import static cadwrelch.tests.Check.equal;
import static cadwrelch.tests.Check.holds;
import static cadwrelch.tests.Check.same;
import static cadwrelch.tests.Check.thrown;

import java.util.HashMap;
import java.util.List;
import java.util.Map;
import java.util.Set;
import java.util.concurrent.atomic.AtomicInteger;
import javax.cache.Cache;
import javax.cache.CacheException;
import javax.cache.configuration.MutableConfiguration;
import javax.cache.integration.CacheLoaderException;
import javax.cache.integration.CacheWriterException;
import javax.cache.processor.EntryProcessor;
import javax.cache.processor.EntryProcessorException;
import javax.cache.processor.EntryProcessorResult;
import javax.cache.processor.MutableEntry;
import cadwrelch.tests.Background.Work;
import cadwrelch.tests.Check.Test;

/** Entry processors: {@code invoke} and {@code invokeAll}, alone and over a store. */
final class Processors {
    private Processors() {}

    private static Cache<Integer, String> plain() {
        return Caches.plain(Integer.class, String.class);
    }

    /** Adds its argument to the value, and answers how long that is then. */
    private static Integer append(MutableEntry<Integer, String> entry, Object... arguments) {
        String old = entry.getValue();
        entry.setValue((old == null ? "" : old) + arguments[0]);
        return entry.getValue().length();
    }

    /** A processor of this shape, so that a test may name one in a line. */
    private static <T> T invoke(Cache<Integer, String> cache, int key, EntryProcessor<Integer, String, T> processor) {
        return cache.invoke(key, processor);
    }

    @Test
    static void getsItsArguments() {
        Object[] arguments = {"a", 2, List.of()};
        same("a processor gets its arguments", arguments[2], plain().invoke(1, (entry, given) -> given[2], arguments));
        equal("all of them", 3, plain().invoke(1, (entry, given) -> given.length, arguments));
        equal("or none", 0, plain().invoke(1, (entry, given) -> given.length));
    }

    @Test
    static void failsAndLeavesAllAsItWas() {
        Cache<Integer, String> cache = plain();
        RuntimeException fault = new IllegalArgumentException("bad");
        EntryProcessorException failed =
                thrown("a processor that throws is EntryProcessorException", EntryProcessorException.class,
                () -> invoke(cache, 1, (entry, arguments) -> {
                    entry.setValue("no");
                    throw fault;
                }));
        same("with what it has thrown as its cause", fault, failed.getCause());
        holds("and nothing of what it did is kept", !cache.containsKey(1));
        EntryProcessorException own = new EntryProcessorException("its own");
        same("an EntryProcessorException is thrown as it is", own, thrown("by invoke", EntryProcessorException.class,
                () -> invoke(cache, 1, (entry, arguments) -> {
                    throw own;
                })));
        cache.put(1, "a");
        thrown("an error while an entry is removed", EntryProcessorException.class,
                () -> invoke(cache, 1, (entry, arguments) -> {
            entry.remove();
            throw fault;
        }));
        equal("leaves the entry", "a", cache.get(1));
    }

    @Test
    @SuppressWarnings({"unchecked", "rawtypes"})
    static void checksWhatIsSet() {
        Cache<Integer, String> cache = plain();
        EntryProcessorException none = thrown("setValue(null) fails the processor", EntryProcessorException.class,
                () -> invoke(cache, 1, (entry, arguments) -> {
                    entry.setValue(null);
                    return null;
                }));
        holds("by NullPointerException", none.getCause() instanceof NullPointerException);
        thrown("setValue of another type than the configured one, too", EntryProcessorException.class,
                () -> invoke(cache, 1, (entry, arguments) -> {
                    ((MutableEntry) entry).setValue(2);
                    return null;
                }));
        thrown("unwrap of another class is IllegalArgumentException", EntryProcessorException.class,
                () -> invoke(cache, 1, (entry, arguments) -> entry.unwrap(Integer.class)));
        holds("nothing is cached", !cache.containsKey(1));
        Cache<Integer, Object> any = Caches.create(new MutableConfiguration<>());
        thrown("setValue of what can't be copied fails the call", CacheException.class,
                () -> any.invoke(1, (entry, arguments) -> {
            entry.setValue(new Object());
            return null;
        }));
        any.put(1, "free");
        equal("and leaves the key free", "free", any.get(1));
    }

    @Test
    static void invokeAllAnswersKeyByKey() {
        Store<Integer, String> store = new Store<>();
        Cache<Integer, String> cache = Caches.through(store, Integer.class, String.class);
        Map<Integer, EntryProcessorResult<Integer>> results = cache.invokeAll(Set.of(5, 6, 7), (entry, arguments) -> {
            if (entry.getKey() == 6) {
                throw new IllegalArgumentException("six");
            }
            entry.setValue("v" + entry.getKey());
            return entry.getKey() == 7 ? null : entry.getKey();
        });
        equal("invokeAll has a result for each key but of a null", Set.of(5, 6), results.keySet());
        equal("get() answers a processor's result", 5, results.get(5).get());
        EntryProcessorException failed = thrown("get() of a key whose processor has thrown is EntryProcessorException",
                EntryProcessorException.class, results.get(6)::get);
        equal("with its cause", "six", failed.getCause().getMessage());
        equal("the other keys are set", Map.of(5, "v5", 7, "v7"), store.map);
        holds("and that one isn't", cache.containsKey(7) && !cache.containsKey(6));
        equal("invokeAll of no key has no result", Map.of(), cache.invokeAll(Set.of(), (entry, arguments) -> 1));
    }

    @Test
    static void invokeAllOfManyKeys() {
        Store<Integer, Integer> store = new Store<>();
        Cache<Integer, Integer> cache = Caches.through(store);
        Map<Integer, Integer> expected = new HashMap<>();
        for (int key = 0; key < 500; key++) {
            expected.put(key, key);
        }
        Map<Integer, EntryProcessorResult<Integer>> results = cache.invokeAll(expected.keySet(), (entry, arguments) -> {
            entry.setValue(entry.getKey());
            return entry.getKey();
        });
        equal("invokeAll of 500 keys has 500 results", expected.keySet(), results.keySet());
        equal("and writes each", expected, store.map);
        equal("by writeAll", 0, store.writes.get());
        cache.invokeAll(expected.keySet(), (entry, arguments) -> {
            entry.remove();
            return null;
        });
        equal("or deletes it", Map.of(), store.map);
        equal("by deleteAll", 0, store.deletes.get());
        holds("and the cache is empty", !cache.iterator().hasNext());
    }

    @Test
    static void aWriterThatFailsLeavesAllAsItWas() {
        Store<Integer, String> store = new Store<>();
        Cache<Integer, String> cache = Caches.through(store, Integer.class, String.class);
        cache.put(1, "a");
        store.fault = new IllegalStateException("down");
        CacheWriterException failed =
                thrown("a processor whose value can't be written is CacheWriterException", CacheWriterException.class,
                () -> cache.invoke(1, Processors::append, "b"));
        same("with its cause", store.fault, failed.getCause());
        equal("and the entry stays", "a", cache.get(1));
        Map<Integer, EntryProcessorResult<Integer>> results = cache.invokeAll(Set.of(1), Processors::append, "b");
        thrown("invokeAll tells it in the key's result", CacheException.class, results.get(1)::get);
        equal("and the entry stays", "a", cache.get(1));
        store.fault = null;
        equal("the key is free then", 2, cache.invoke(1, Processors::append, "b"));
    }

    @Test
    static void aLoaderThatFailsFailsTheProcessor() {
        Store<Integer, String> store = new Store<>();
        Cache<Integer, String> cache = Caches.through(store, Integer.class, String.class);
        store.fault = new IllegalStateException("down");
        EntryProcessorException failed =
                thrown("getValue of a loader that throws fails the processor", EntryProcessorException.class,
                () -> cache.invoke(1, Processors::append, "b"));
        holds("by CacheLoaderException", failed.getCause() instanceof CacheLoaderException);
        same("of what the loader has thrown", store.fault, failed.getCause().getCause());
        equal("the writer isn't asked", 0, store.writes.get());
        EntryProcessorException stubborn =
                thrown("a processor can't undo that by catching it", EntryProcessorException.class,
                () -> cache.invoke(1, (entry, arguments) -> {
                    try {
                        return entry.getValue();
                    } catch (CacheLoaderException e) {
                        entry.setValue("mine");
                        return "mine";
                    }
                }));
        holds("the failed load is its cause", stubborn.getCause() instanceof CacheLoaderException);
        UnsupportedOperationException own = new UnsupportedOperationException("own");
        EntryProcessorException other =
                thrown("nor by throwing something else", EntryProcessorException.class,
                () -> cache.invoke(1, (entry, arguments) -> {
                    try {
                        return entry.getValue();
                    } catch (CacheLoaderException e) {
                        throw own;
                    }
                }));
        same("which is its cause then", own, other.getCause());
        store.fault = null;
        holds("nothing is cached", !cache.containsKey(1));
        equal("and the key is free", 1, cache.invoke(1, Processors::append, "b"));
    }

    @Test
    static void incrementsOfManyThreadsAreAllThere() throws Exception {
        Cache<Integer, Integer> cache = Caches.plain(Integer.class, Integer.class);
        int threads = 8;
        int rounds = 4000;
        AtomicInteger next = new AtomicInteger();
        List<Work<Integer>> all = Background.startMany(threads, () -> {
            for (int i = 0; i < rounds; i++) {
                cache.invoke(next.getAndIncrement() % 4, (entry, arguments) -> {
                    entry.setValue(entry.exists() ? entry.getValue() + 1 : 1);
                    return null;
                });
            }
            return 0;
        });
        Background.results(all);
        int sum = 0;
        for (int key = 0; key < 4; key++) {
            sum += cache.get(key);
        }
        equal("a processor is atomic at its key", threads * rounds, sum);
    }

    @Test
    static void aSlowProcessorHoldsNobodyElse() throws Exception {
        Cache<Integer, String> cache = plain();
        cache.put(1, "old");
        Store.Gate gate = new Store<Integer, String>().shut();
        Work<String> slow = Background.start(() -> invoke(cache, 1, (entry, arguments) -> {
            entry.setValue("new");
            gate.pass();
            return entry.getValue();
        }));
        gate.awaitCall();
        equal("while a processor is slow, a get of its key answers what is cached", "old", cache.get(1));
        for (int key = 100; key < 200; key++) {
            cache.put(key, "v");
        }
        holds("and puts of other keys are done", !slow.isDone());
        Work<String> put = Background.start(() -> cache.getAndPut(1, "last"));
        put.awaitSleep();
        gate.open();
        equal("the processor ends", "new", slow.result());
        equal("and a getAndPut that has waited for it finds what it has set", "new", put.result());
    }
}
