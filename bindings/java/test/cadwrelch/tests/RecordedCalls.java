package cadwrelch.tests;

import static cadwrelch.tests.Check.equal;
import static cadwrelch.tests.Check.holds;
import static cadwrelch.tests.Check.thrown;

import cadwrelch.recording.CallRecorder;
import cadwrelch.tests.Background.Work;
import cadwrelch.tests.Check.Test;
import java.io.IOException;
import java.lang.reflect.Proxy;
import java.nio.file.Path;
import java.util.ArrayList;
import java.util.Iterator;
import java.util.LinkedHashMap;
import java.util.LinkedHashSet;
import java.util.List;
import java.util.Map;
import java.util.Set;
import java.util.concurrent.Callable;
import java.util.stream.Collectors;
import javax.cache.Cache;
import javax.cache.integration.CacheLoader;
import javax.cache.integration.CacheLoaderException;
import javax.cache.integration.CacheWriterException;
import javax.cache.integration.CompletionListener;
import javax.cache.integration.CompletionListenerFuture;
import javax.cache.processor.EntryProcessorException;

/** What {@link CallRecorder} notes of a cache's calls. */
final class RecordedCalls {
    private RecordedCalls() {}

    /** A recorded cache over a recorded store. */
    private static final class Scene {
        final CallRecorder recorder = new CallRecorder();
        final Store<String, String> store = new Store<>();
        final Cache<String, String> cache;

        Scene() {
            this(null);
        }

        /** With another loader than the store, if it isn't null. */
        Scene(CacheLoader<String, String> other) {
            CacheLoader<String, String> loader = recorder.loader(other == null ? store : other);
            cache = recorder.cache(Caches.create(Caches.over(store).setTypes(String.class, String.class)
                    .setCacheLoaderFactory(() -> loader).setCacheWriterFactory(() -> recorder.writer(store))));
        }

        /** The record, without the times and its first two lines. */
        List<String> lines() throws IOException {
            StringBuilder out = new StringBuilder();
            recorder.writeTo(out);
            List<String> lines = out.toString().lines().map(line -> line.replaceFirst("^@\\d+ ", ""))
                    .collect(Collectors.toList());
            equal("a record begins with its form", List.of("history 1", "open read write"), lines.subList(0, 2));
            return lines.subList(2, lines.size());
        }

        /** The lines that have a word, without their threads. */
        List<String> lines(String word) throws IOException {
            return lines().stream().map(line -> line.substring(line.indexOf(' ') + 1))
                    .filter(line -> line.startsWith(word + " ")).collect(Collectors.toList());
        }

        /** Loads keys anew, and waits for the end. */
        void reload(String... keys) throws Exception {
            CompletionListenerFuture done = new CompletionListenerFuture();
            cache.loadAll(new LinkedHashSet<>(List.of(keys)), true, done);
            done.get();
        }
    }

    @Test
    static void callsLoadsAndWritesAreLines() throws Exception {
        Scene scene = new Scene();
        scene.store.map.put("a", "1");
        scene.recorder.stored("a", "1");
        scene.cache.get("a");
        scene.cache.put("b c", "");
        scene.cache.replace("a", "1", "2");
        scene.cache.getAndRemove("a");
        equal("each call is a line when it begins and when it ends, and so is what is asked for it", List.of("set a 1",
                "t1 call 1 get a", "t1 load 1 a", "t1 loads 1 a=1", "t1 is 1 1",
                "t1 call 2 put b.20c ~", "t1 write 2 b.20c=~", "t1 writes 2", "t1 is 2 ok",
                "t1 call 3 replaceif a 1 2", "t1 write 3 a=2", "t1 writes 3", "t1 is 3 true",
                "t1 call 4 getremove a", "t1 delete 4 a", "t1 deletes 4", "t1 is 4 2"), scene.lines());
    }

    @Test
    static void callsOfManyKeysAreOneCall() throws Exception {
        Scene scene = new Scene();
        Map<String, String> pairs = new LinkedHashMap<>();
        pairs.put("a", "1");
        pairs.put("b", "2");
        scene.store.refused = Set.of("b");
        thrown("a writer leaves a key", CacheWriterException.class, () -> scene.cache.putAll(pairs));
        scene.cache.getAll(new LinkedHashSet<>(List.of("a", "b")));
        scene.cache.getAll(Set.of());
        scene.cache.removeAll();
        scene.cache.clear();
        equal("a call of many keys is one call, a loader's and a writer's, too; of no key it is none", List.of(
                "t1 call 1 putall a=1 b=2", "t1 write 1 a=1 b=2", "t1 writefails 1 1 but b", "t1 is 1 WriterFailed 1",
                "t1 call 2 getall a b", "t1 load 2 b", "t1 loads 2", "t1 is 2 all a=1",
                "t1 call 3 removeevery", "t1 delete 3 a", "t1 deletes 3", "t1 is 3 ok",
                "t1 call 4 clear", "t1 is 4 ok"), scene.lines());
    }

    @Test
    static void aLoadAllLoadsOnAnotherThread() throws Exception {
        Scene scene = new Scene();
        scene.store.map.put("a", "1");
        scene.reload("a", "b");
        scene.cache.get("a");
        List<String> lines = scene.lines();
        equal("its call and its end have a thread of their own, since its caller goes on", List.of(
                "t2 call 1 loadall replace a b", "t2 is 1 ok"),
                lines.stream().filter(line -> line.startsWith("t2 ")).collect(Collectors.toList()));
        equal("its load is its own, on whatever thread it runs", List.of("load 1 a b"), scene.lines("load"));
        equal("and answered there", List.of("loads 1 a=1"), scene.lines("loads"));
        holds("which is another one", lines.stream().noneMatch(line -> line.startsWith("t1 load ")));
    }

    @Test
    static void aLoadAllThatWaitsForAnotherHasItsOwnLoad() throws Exception {
        Scene scene = new Scene();
        Store.Gate gate = scene.store.shut();
        CompletionListenerFuture first = new CompletionListenerFuture();
        scene.cache.loadAll(Set.of("a"), true, first);
        gate.awaitCall();
        scene.store.passBy();
        CompletionListenerFuture second = new CompletionListenerFuture();
        scene.cache.loadAll(Set.of("a", "b"), true, second);
        gate.open();
        first.get();
        second.get();
        equal("a load while one call alone is under way is that call's", "load 1 a", scene.lines("load").get(0));
    }

    /** Calls of loadAll that are under way until they are ended, over a cache that does nothing. */
    private static final class LoadAlls {
        final CallRecorder recorder = new CallRecorder();
        final CacheLoader<String, String> loader = recorder.loader(new Store<>());
        private final List<CompletionListener> listeners = new ArrayList<>();
        private final Cache<String, String> cache = recorder.cache(idle());

        @SuppressWarnings("unchecked")
        private Cache<String, String> idle() {
            return (Cache<String, String>) Proxy.newProxyInstance(LoadAlls.class.getClassLoader(),
                    new Class<?>[] {Cache.class}, (proxy, method, arguments) -> {
                        if (!method.getName().equals("loadAll")) {
                            throw new UnsupportedOperationException();
                        }
                        return listeners.add((CompletionListener) arguments[2]) ? null : "never";
                    });
        }

        void begin(String... keys) {
            cache.loadAll(Set.of(keys), true, null);
        }

        void endAll() {
            listeners.forEach(CompletionListener::onCompletion);
            listeners.clear();
        }

        /** The lines that have one of these words, without times and threads. */
        List<String> lines(String... words) throws IOException {
            StringBuilder out = new StringBuilder();
            recorder.writeTo(out);
            return out.toString().lines().map(line -> line.replaceFirst("^@\\d+ \\S+ ", ""))
                    .filter(line -> Set.of(words).contains(line.split(" ")[0])).collect(Collectors.toList());
        }
    }

    @Test
    static void aLoadThatTwoLoadAllsMayHaveMadeIsNobodys() throws Exception {
        LoadAlls all = new LoadAlls();
        all.begin("a", "c");
        all.begin("a");
        all.begin("b");
        all.loader.load("a");
        all.loader.load("b");
        all.loader.load("d");
        all.endAll();
        all.begin("a");
        all.loader.load("a");
        all.endAll();
        equal("of two calls neither has the load; who alone names a key has it; a load of no call's key is nobody's",
                List.of("load 5 a", "load 3 b", "load 6 d", "load 4 a"), all.lines("load"));
        equal("it is written as that of a call which doesn't end", List.of("call 5 loadall replace a",
                "call 6 loadall replace d"), all.lines("call").subList(3, 5));
        equal("where it isn't known whose a load is, the calls say nothing of their replies",
                List.of("is 1 threw unclear", "is 2 threw unclear", "is 3 ok", "is 4 ok"), all.lines("is"));
    }

    @Test
    static void aLoadAllWithTwoLoadsOfAKeyHasNone() throws Exception {
        LoadAlls all = new LoadAlls();
        all.begin("a", "b");
        all.loader.load("a");
        equal("what is written meanwhile knows no better", List.of("load 1 a"), all.lines("load"));
        all.loader.load("a");
        all.loader.load("b");
        all.endAll();
        equal("one of them is a background's: nobody knows which",
                List.of("load 2 a", "load 3 a", "load 4 b", "is 1 threw unclear"), all.lines("load", "is"));
    }

    @Test
    static void aLoadAllThatFails() throws Exception {
        Scene scene = new Scene();
        scene.store.fault = new IllegalStateException("down");
        thrown("it fails", Exception.class, () -> scene.reload("a"));
        equal("the load's failure is that of the call", List.of("loadfails 1 1", "is 1 LoaderFailed 1"),
                List.of(scene.lines("loadfails").get(0), scene.lines("is").get(0)));
    }

    @Test
    static void aLoadThatFailsInsideInvoke() throws Exception {
        Scene scene = new Scene();
        scene.store.fault = new IllegalStateException("down");
        thrown("the processor lets it pass", EntryProcessorException.class,
                () -> scene.cache.invoke("a", (entry, arguments) -> entry.getValue()));
        scene.store.fault = new IllegalStateException("down again");
        thrown("the processor throws something else", EntryProcessorException.class,
                () -> scene.cache.invoke("a", (entry, arguments) -> {
                    thrown("the value isn't there", CacheLoaderException.class, entry::getValue);
                    throw new IllegalArgumentException("mine");
                }));
        scene.store.fault = null;
        thrown("the processor alone fails", EntryProcessorException.class,
                () -> scene.cache.invoke("a", (entry, arguments) -> {
                    entry.getValue();
                    entry.setValue("1");
                    throw new IllegalArgumentException("mine");
                }));
        equal("the processor's calls are one line", List.of("process 1 a getfails=1 fails=1",
                "process 2 a getfails=2 fails=3", "process 3 a get=- set=1 fails=4"), scene.lines("process"));
        equal("an EntryProcessorException after a load that has failed is the loader's failure", List.of(
                "is 1 LoaderFailed 1", "is 2 LoaderFailed 2", "is 3 ProcessorFailed 4"), scene.lines("is"));
    }

    @Test
    static void aWriteThatFailsInsideInvoke() throws Exception {
        Scene scene = new Scene();
        thrown("the writer fails", CacheWriterException.class, () -> scene.cache.invoke("a", (entry, arguments) -> {
            entry.setValue("1");
            scene.store.fault = new IllegalStateException("down");
            return entry.exists();
        }));
        equal("the processor has ended, and the writer has failed", List.of("t1 call 1 invoke a",
                "t1 process 1 a set=1 exists=true returns=true", "t1 write 1 a=1", "t1 writefails 1 1",
                "t1 is 1 WriterFailed 1"), scene.lines());
    }

    @Test
    static void aProcessorWhoseOtherCallFails() throws Exception {
        Scene scene = new Scene();
        thrown("a processor fails by a load of another key", EntryProcessorException.class,
                () -> scene.cache.invoke("a", (entry, arguments) -> {
                    scene.store.fault = new IllegalStateException("down");
                    return scene.cache.get("b");
                }));
        equal("the inner call has a thread of its own, and its load",
                List.of("t2 call 2 get b", "t1 load 2 b", "t1 loadfails 2 1", "t2 is 2 LoaderFailed 1"),
                scene.lines().subList(1, 5));
        equal("the outer one has failed by its processor", "is 1 ProcessorFailed 2", scene.lines("is").get(1));
    }

    @Test
    static void aCallInsideALoaderLeavesTheLoadItsOwn() throws Exception {
        List<Cache<String, String>> caches = new ArrayList<>();
        Scene scene = new Scene(new CacheLoader<String, String>() {
            @Override
            public String load(String key) {
                return key.equals("a") ? caches.get(0).get("b") + "!" : "1";
            }

            @Override
            public Map<String, String> loadAll(Iterable<? extends String> keys) {
                throw new UnsupportedOperationException();
            }
        });
        caches.add(scene.cache);
        equal("the inner call is inside", "1!", scene.cache.get("a"));
        equal("each load is that of its call", List.of("loads 2 b=1", "loads 1 a=1.21"), scene.lines("loads"));
    }

    @Test
    static void whoJoinsALoadHasItsFailure() throws Exception {
        Scene scene = new Scene();
        scene.store.fault = new IllegalStateException("down");
        Store.Gate gate = scene.store.shut();
        Work<String> first = Background.start(() -> scene.cache.get("a"));
        gate.awaitCall();
        Work<String> second = Background.start(() -> scene.cache.get("a"));
        second.awaitSleep();
        scene.store.open();
        thrown("the first fails", CacheLoaderException.class, first::result);
        thrown("the second fails", CacheLoaderException.class, second::result);
        equal("one load", 1, scene.lines("load").size());
        equal("both have its code", List.of("is 1 LoaderFailed 1", "is 2 LoaderFailed 1"),
                scene.lines("is").stream().sorted().collect(Collectors.toList()));
    }

    @Test
    static void aCallThatHasNotEndedHasNoReply() throws Exception {
        Scene scene = new Scene();
        Store.Gate gate = scene.store.shut();
        Work<String> get = Background.start(() -> scene.cache.get("a"));
        gate.awaitCall();
        equal("what is written meanwhile has its beginning", List.of("t1 call 1 get a", "t1 load 1 a"), scene.lines());
        scene.store.open();
        get.result();
        equal("and later its end", 4, scene.lines().size());
    }

    @Test
    static void othersWriteByTheRecordedWriter() throws Exception {
        Scene scene = new Scene();
        scene.recorder.writer(scene.store).delete("a");
        equal("a write in no call is that of a call which doesn't end",
                List.of("t1 call 1 removeall a", "t1 delete 1 a", "t1 deletes 1"), scene.lines());
    }

    @Test
    static void anIteratorRemoves() throws Exception {
        Scene scene = new Scene();
        scene.cache.put("a", "1");
        Iterator<Cache.Entry<String, String>> all = scene.cache.iterator();
        all.next();
        all.remove();
        equal("an iterator's remove is a call without a reply", List.of("t1 call 2 remove a", "t1 delete 2 a",
                "t1 deletes 2", "t1 is 2 threw unclear"), scene.lines().subList(4, 8));
    }

    @Test
    static void otherExceptionsAreNames() throws Exception {
        Scene scene = new Scene();
        scene.store.fault = new AssertionError("mine");
        thrown("an error of the loader is thrown itself", AssertionError.class, () -> scene.cache.get("a"));
        scene.store.fault = null;
        thrown("a null is refused", NullPointerException.class, () -> scene.cache.get(null));
        scene.cache.close();
        thrown("a closed cache", IllegalStateException.class, () -> scene.cache.get("b"));
        equal("it is the loader's failure; a null isn't recorded; anything else has its name",
                List.of("is 1 LoaderFailed 1", "is 2 threw IllegalStateException"), scene.lines("is"));
    }

    /** What some work answers on another thread. */
    private static String result(Callable<String> work) {
        try {
            return Background.start(work).result();
        } catch (Exception e) {
            throw new AssertionError(e);
        }
    }

    @Test
    static void otherThreadsOfAProviderWorkForACall() throws Exception {
        CallRecorder recorder = new CallRecorder();
        Store<String, String> store = new Store<>();
        CacheLoader<String, String> loader = recorder.loader(store);
        Cache<String, String> cache = recorder.cache(Caches.through(store, String.class, String.class));
        equal("a thread in no call", -1L, recorder.currentCall());
        cache.invoke("a", (entry, arguments) -> {
            long call = recorder.currentCall();
            return result(() -> recorder.inCall(call, () -> loader.load("a")));
        });
        StringBuilder out = new StringBuilder();
        recorder.writeTo(out);
        holds("a load on another thread is that of the call for which it works: " + out,
                out.toString().contains(" t2 load 1 a\n"));
    }

    @Test
    static void aLoadThatIsAnsweredAfterItsCallIsNobodys() throws Exception {
        CallRecorder recorder = new CallRecorder();
        Store<String, String> store = new Store<>();
        Store.Gate gate = store.shut();
        CacheLoader<String, String> loader = recorder.loader(store);
        Cache<String, String> cache = recorder.cache(Caches.plain(String.class, String.class));
        List<Work<String>> late = new ArrayList<>();
        cache.invoke("a", (entry, arguments) -> {
            long call = recorder.currentCall();
            late.add(Background.start(() -> recorder.inCall(call, () -> loader.load("a"))));
            return null;
        });
        gate.awaitCall();
        store.open();
        late.get(0).result();
        StringBuilder out = new StringBuilder();
        recorder.writeTo(out);
        holds("it is that of a call which doesn't end: " + out, out.toString().contains(" call 2 loadall replace a\n")
                && out.toString().contains(" load 2 a\n") && out.toString().contains(" loads 2\n"));
    }

    @Test
    static void keysAndValuesMayBeNamedOtherwise() throws Exception {
        CallRecorder recorder = new CallRecorder(key -> "n" + key);
        Cache<Integer, Integer> cache = recorder.cache(Caches.plain(Integer.class, Integer.class));
        cache.put(1, 2);
        StringBuilder out = new StringBuilder();
        recorder.writeTo(out);
        holds("the names are the function's: " + out, out.toString().contains("t1 call 1 put n1 n2\n"));
        holds("without a loader and a writer", out.toString().startsWith("history 1\nopen\n"));
    }

    @Test
    static void longNamesAreShortened() throws Exception {
        Scene scene = new Scene();
        String key = "a".repeat(40);
        scene.cache.put(key, "b".repeat(300));
        scene.cache.put(key + "!", "c".repeat(256));
        scene.cache.get(key);
        scene.cache.get("");
        equal("a key of more than 32 bytes and a value of more than 256 are beginnings with numbers", List.of(
                "call 1 put " + "a".repeat(20) + "..1 " + "b".repeat(20) + "..2",
                "call 2 put " + "a".repeat(20) + "..3 " + "c".repeat(256),
                "call 3 get " + "a".repeat(20) + "..1", "call 4 get .."), scene.lines("call"));
    }

    @Test
    static void namesOfThreadsAreUsedAgain() throws Exception {
        Scene scene = new Scene();
        scene.reload("a");
        scene.reload("a");
        scene.cache.invoke("b", (entry, arguments) -> scene.cache.get("c") + scene.cache.get("d"));
        equal("a call by itself has the name of an earlier one that is over", List.of("t2", "t2", "t1", "t2", "t2"),
                scene.lines().stream().filter(line -> line.contains(" call ")).map(line -> line.split(" ")[0])
                        .collect(Collectors.toList()));
    }

    @Test
    static void nullsAreRefused() {
        CallRecorder recorder = new CallRecorder();
        thrown("no function", NullPointerException.class, () -> new CallRecorder(null));
        thrown("no cache", NullPointerException.class, () -> recorder.cache(null));
        thrown("no loader", NullPointerException.class, () -> recorder.loader(null));
        thrown("no writer", NullPointerException.class, () -> recorder.writer(null));
        thrown("no such folder", IOException.class, () -> recorder.write(Path.of("/none/such")));
    }
}
