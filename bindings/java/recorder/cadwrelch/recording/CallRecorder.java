package cadwrelch.recording;

import java.io.IOException;
import java.io.Writer;
import java.lang.reflect.Proxy;
import java.nio.charset.StandardCharsets;
import java.nio.file.Files;
import java.nio.file.Path;
import java.util.Map;
import java.util.Objects;
import java.util.concurrent.ConcurrentHashMap;
import java.util.concurrent.ConcurrentSkipListMap;
import java.util.concurrent.atomic.AtomicLong;
import java.util.function.Function;
import java.util.function.Supplier;
import javax.cache.Cache;
import javax.cache.configuration.CompleteConfiguration;
import javax.cache.integration.CacheLoader;
import javax.cache.integration.CacheWriter;

/**
 * Records what a cache is asked and answers, and what its loader and its writer are asked and answer. Wrap all three,
 * let threads call the cache, and write the record:
 *
 * <pre>{@code
 * CallRecorder recorder = new CallRecorder();
 * CacheLoader<String, String> loader = recorder.loader(store);
 * CacheWriter<String, String> writer = recorder.writer(store);
 * Cache<String, String> cache = recorder.cache(manager.createCache("titles", configuration));
 * // .. threads call the cache ..
 * recorder.write(Path.of("titles.history"));
 * }</pre>
 *
 * <p>One recorder is for one cache. A thread notes its lines in a list of its own. Any thread may call any method.
 *
 * <p>Keys and values are named by their texts: those that are equal must have equal texts, and those that aren't,
 * others. Iterators and listeners aren't recorded, but for an iterator's {@code remove}. Who changes the store beside
 * the cache does so by the recorded writer; the record then says that another program did it.
 */
public final class CallRecorder {
    final Lines lines = new Lines();
    final Failures failures = new Failures();
    final AtomicLong numbers = new AtomicLong();
    final LoadOwners loads = new LoadOwners(numbers::incrementAndGet);
    final Words words;
    /** The calls under way, by their numbers. */
    final Map<Long, RecordedCall> underWay = new ConcurrentHashMap<>();
    private final Map<String, String> opening = new ConcurrentSkipListMap<>();
    private volatile boolean readsThrough;
    private volatile boolean writesThrough;

    /** A recorder that names keys and values by {@code String.valueOf}. */
    public CallRecorder() {
        this(String::valueOf);
    }

    /**
     * A recorder that names keys and values by a function.
     *
     * @param texts the text of a key or a value that isn't null; equal ones have equal texts, and others other ones
     */
    public CallRecorder(Function<Object, String> texts) {
        words = new Words(Objects.requireNonNull(texts, "texts"));
    }

    /**
     * Says what the store has at first. A key that isn't named has no value there.
     *
     * @param key a key
     * @param value its value, or null for none
     */
    public void stored(Object key, Object value) {
        opening.put(words.key(Objects.requireNonNull(key, "key")), words.value(value));
    }

    /**
     * A loader that records what it is asked and answers.
     *
     * @param <K> the type of keys
     * @param <V> the type of values
     * @param loader the loader that it asks
     * @return the loader that is given to the provider
     */
    public <K, V> CacheLoader<K, V> loader(CacheLoader<K, V> loader) {
        readsThrough = true;
        return new RecordedLoader<>(this, Objects.requireNonNull(loader, "loader"));
    }

    /**
     * A writer that records what it is asked and answers. On a thread that is in no call of the cache it records a
     * change that another program makes.
     *
     * @param <K> the type of keys
     * @param <V> the type of values
     * @param writer the writer that it asks
     * @return the writer that is given to the provider
     */
    public <K, V> CacheWriter<K, V> writer(CacheWriter<K, V> writer) {
        writesThrough = true;
        return new RecordedWriter<>(this, Objects.requireNonNull(writer, "writer"));
    }

    /**
     * A cache that records its calls. Whether it reads and writes through is what its configuration says, or, if it has
     * none of the standard's, whether loader and writer were wrapped.
     *
     * @param <K> the type of keys
     * @param <V> the type of values
     * @param cache the cache that it calls
     * @return the cache that is called by those whose calls are to be recorded
     */
    @SuppressWarnings("unchecked")
    public <K, V> Cache<K, V> cache(Cache<K, V> cache) {
        Objects.requireNonNull(cache, "cache");
        try {
            CompleteConfiguration<?, ?> configuration = cache.getConfiguration(CompleteConfiguration.class);
            readsThrough = configuration.isReadThrough();
            writesThrough = configuration.isWriteThrough();
        } catch (IllegalArgumentException | UnsupportedOperationException e) {
            // An adapter that is no whole cache: whether it reads and writes through is as it was told above.
        }
        return (Cache<K, V>) Proxy.newProxyInstance(CallRecorder.class.getClassLoader(), new Class<?>[] {Cache.class},
                new CallHandler(this, cache));
    }

    /**
     * The call that this thread makes, for a provider that asks its loader or its writer on a thread of its own. The
     * loads of a {@code loadAll} need no such help.
     *
     * @return its number, or -1 if the thread makes none
     */
    public long currentCall() {
        RecordedCall call = lines.mine().call;
        return call == null ? -1 : call.number;
    }

    /**
     * Does on this thread what belongs to a call of another one; to none, if that has ended.
     *
     * @param <T> the type of the result
     * @param number what {@link #currentCall} answered there
     * @param work what is done
     * @return its result
     */
    public <T> T inCall(long number, Supplier<T> work) {
        return lines.inCall(underWay.get(number), work);
    }

    /**
     * Writes what was recorded so far, in the order of time. Calls that haven't ended may still run.
     *
     * @param file the file, which is replaced
     * @throws IOException if it can't be written
     */
    public void write(Path file) throws IOException {
        try (Writer out = Files.newBufferedWriter(file, StandardCharsets.UTF_8)) {
            writeTo(out);
        }
    }

    /**
     * Writes what was recorded so far, as {@link #write} does.
     *
     * @param out where it is appended
     * @throws IOException if it can't be written
     */
    public void writeTo(Appendable out) throws IOException {
        out.append("history 1\nopen");
        out.append(readsThrough ? " read" : "").append(writesThrough ? " write" : "").append('\n');
        for (Map.Entry<String, String> entry : opening.entrySet()) {
            out.append("set " + entry.getKey() + " " + entry.getValue() + "\n");
        }
        lines.writeTo(out, loads::resolve);
    }
}
