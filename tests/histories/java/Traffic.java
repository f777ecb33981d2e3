import cadwrelch.recording.CallRecorder;
import java.nio.file.Files;
import java.nio.file.Path;
import java.util.ArrayList;
import java.util.Arrays;
import java.util.HashMap;
import java.util.LinkedHashMap;
import java.util.LinkedHashSet;
import java.util.List;
import java.util.Map;
import java.util.Random;
import java.util.Set;
import java.util.concurrent.ConcurrentHashMap;
import java.util.concurrent.CountDownLatch;
import java.util.concurrent.ExecutionException;
import java.util.concurrent.atomic.AtomicInteger;
import java.util.concurrent.locks.LockSupport;
import javax.cache.Cache;
import javax.cache.CacheException;
import javax.cache.Caching;
import javax.cache.configuration.MutableConfiguration;
import javax.cache.integration.CacheLoader;
import javax.cache.integration.CacheWriter;
import javax.cache.integration.CompletionListenerFuture;

/**
 * Lets threads call a cache over a slow store, and writes what was recorded, one file for each round.
 *
 * <p>usage: Traffic SUBJECT FOLDER [rounds=20] [threads=4] [calls=20] [keys=3] [fail=0] [lie=0] [ops=get,get,put]
 *
 * <p>SUBJECT is `provider`, which is what Caching finds, `naive`, `compute-if-absent`, `locked`, `ehcache`,
 * `ehcache-self` or `caffeine`; calls are those of each thread, fail and lie of a hundred calls of the store.
 */
public final class Traffic {
    private static final AtomicInteger made = new AtomicInteger();

    private final Map<String, String> options = new HashMap<>();
    private final String subject;
    private final Path folder;
    private final Map<String, String> last = new ConcurrentHashMap<>();

    private Traffic(String[] words) {
        subject = words[0];
        folder = Path.of(words[1]);
        for (String word : Arrays.asList(words).subList(2, words.length)) {
            options.put(word.split("=")[0], word.split("=")[1]);
        }
    }

    public static void main(String[] words) throws Exception {
        Traffic traffic = new Traffic(words);
        Files.createDirectories(traffic.folder);
        for (int round = 0; round < traffic.option("rounds", 20); round++) {
            traffic.play(round);
        }
        System.exit(0);
    }

    private int option(String name, int otherwise) {
        return Integer.parseInt(options.getOrDefault(name, Integer.toString(otherwise)));
    }

    private static Cache<String, String> foreign(String name, CallRecorder recorder, CacheLoader<String, String> loader,
            CacheWriter<String, String> writer, Boolean is) throws ReflectiveOperationException {
        @SuppressWarnings("unchecked")
        Cache<String, String> cache = (Cache<String, String>) Class.forName(name)
                .getDeclaredMethod("of", CallRecorder.class, CacheLoader.class, CacheWriter.class, Boolean.class)
                .invoke(null, recorder, loader, writer, is);
        return cache;
    }

    private Cache<String, String> make(CallRecorder recorder, CacheLoader<String, String> loader,
            CacheWriter<String, String> writer) throws ReflectiveOperationException {
        switch (subject) {
            case "naive": return Subjects.of(new Subjects.Naive(loader, writer));
            case "compute-if-absent": return Subjects.of(new Subjects.ComputeIfAbsent(loader, writer));
            case "locked": return Subjects.of(new Subjects.Locked(loader, writer));
            case "ehcache": return foreign("EhcacheSubject", recorder, loader, writer, false);
            case "ehcache-self": return foreign("EhcacheSubject", recorder, loader, writer, true);
            case "caffeine": return foreign("CaffeineSubject", recorder, loader, writer, false);
            case "provider": return Caching.getCachingProvider().getCacheManager().createCache("c" + made.incrementAndGet(),
                    new MutableConfiguration<String, String>().setTypes(String.class, String.class)
                            .setReadThrough(true).setCacheLoaderFactory(() -> loader)
                            .setWriteThrough(true).setCacheWriterFactory(() -> writer));
            default: throw new IllegalArgumentException(subject);
        }
    }

    private void play(int round) throws Exception {
        CallRecorder recorder = new CallRecorder();
        SlowStore store = new SlowStore(option("fail", 0), option("lie", 0));
        for (int key = 0; key < option("keys", 3); key += 2) {
            store.map.put("k" + key, "v0");
            recorder.stored("k" + key, "v0");
        }
        Cache<String, String> inside = make(recorder, recorder.loader(store), recorder.writer(store));
        Cache<String, String> cache = recorder.cache(inside);
        CountDownLatch start = new CountDownLatch(1);
        List<Thread> threads = new ArrayList<>();
        for (int number = 0; number < option("threads", 4); number++) {
            Caller caller = new Caller(cache, number, new Random(round * 1000L + number), start);
            Thread thread = new Thread(caller);
            thread.setDaemon(true);
            threads.add(thread);
            thread.start();
        }
        start.countDown();
        for (Thread thread : threads) {
            thread.join(20_000);
        }
        recorder.write(folder.resolve(String.format("%04d.history", round)));
        if (!subject.equals("naive") && !subject.equals("locked") && !subject.equals("caffeine")
                && !subject.equals("compute-if-absent")) {
            inside.close();
        }
    }

    /** The calls of one thread. */
    private final class Caller implements Runnable {
        private final Cache<String, String> cache;
        private final int number;
        private final Random random;
        private final CountDownLatch start;
        private final String[] ops = options.getOrDefault("ops", "get,get,put").split(",");

        Caller(Cache<String, String> cache, int number, Random random, CountDownLatch start) {
            this.cache = cache;
            this.number = number;
            this.random = random;
            this.start = start;
        }

        private String key() {
            return "k" + random.nextInt(option("keys", 3));
        }

        @Override
        public void run() {
            try {
                start.await();
                for (int i = 0; i < option("calls", 20); i++) {
                    call(ops[random.nextInt(ops.length)], key(), "v" + number + "_" + i);
                    if (random.nextInt(4) == 0) {
                        LockSupport.parkNanos(random.nextInt(300_000));
                    }
                }
            } catch (InterruptedException e) {
                Thread.currentThread().interrupt();
            }
        }

        private void call(String op, String key, String value) {
            try {
                if (!ofOne(op, key, value)) {
                    ofMany(op, key, value);
                }
            } catch (CacheException | ExecutionException e) {
                // It was recorded.
            } catch (InterruptedException e) {
                Thread.currentThread().interrupt();
            }
        }

        private boolean ofOne(String op, String key, String value) {
            String old = last.getOrDefault(key, "v0");
            switch (op) {
                case "get":
                    note(key, cache.get(key));
                    return true;
                case "put":
                    cache.put(key, value);
                    note(key, value);
                    return true;
                case "contains":
                    return cache.containsKey(key) || true;
                case "getput":
                    return cache.getAndPut(key, value) == null || true;
                case "putif":
                    return cache.putIfAbsent(key, value) || true;
                case "remove":
                    return cache.remove(key) || true;
                case "removeif":
                    return cache.remove(key, old) || true;
                case "getremove":
                    return cache.getAndRemove(key) == null || true;
                case "replace":
                    return cache.replace(key, value) || true;
                case "replaceif":
                    return cache.replace(key, old, value) || true;
                case "getreplace":
                    return cache.getAndReplace(key, value) == null || true;
                case "invoke":
                    return cache.invoke(key, (entry, arguments) -> process(entry, value)) == null || true;
                default:
                    return false;
            }
        }

        private void note(String key, String value) {
            if (value != null) {
                last.put(key, value);
            }
        }

        private String process(javax.cache.processor.MutableEntry<String, String> entry, String value) {
            String old = random.nextInt(3) == 0 ? null : entry.getValue();
            if (random.nextInt(4) == 0) {
                entry.exists();
            }
            int what = random.nextInt(4);
            if (what == 0) {
                entry.remove();
            } else if (what < 3) {
                entry.setValue(value);
            }
            if (random.nextInt(8) == 0) {
                throw new SlowStore.Failure();
            }
            return old;
        }

        private void ofMany(String op, String key, String value) throws InterruptedException, ExecutionException {
            Set<String> keys = new LinkedHashSet<>(List.of(key, key()));
            switch (op) {
                case "getall":
                    cache.getAll(keys);
                    break;
                case "putall":
                    Map<String, String> pairs = new LinkedHashMap<>();
                    keys.forEach(each -> pairs.put(each, value + "_" + pairs.size()));
                    cache.putAll(pairs);
                    break;
                case "removeall":
                    cache.removeAll(keys);
                    break;
                case "removeevery":
                    cache.removeAll();
                    break;
                case "clear":
                    cache.clear();
                    break;
                case "loadall":
                case "loadkeep":
                    CompletionListenerFuture done = new CompletionListenerFuture();
                    cache.loadAll(keys, op.equals("loadall"), done);
                    if (random.nextBoolean()) {
                        done.get();
                    }
                    break;
                case "invokeall":
                    cache.invokeAll(keys, (entry, arguments) -> process(entry, value));
                    break;
                default:
                    throw new IllegalArgumentException(op);
            }
        }
    }
}
