package cadwrelch.recording;

import cadwrelch.recording.LoadOwners.Load;
import cadwrelch.recording.RecordedCall.Part;
import java.util.ArrayList;
import java.util.LinkedHashSet;
import java.util.List;
import java.util.Map;
import java.util.Set;
import java.util.function.Function;
import java.util.function.LongSupplier;
import java.util.function.Supplier;
import java.util.stream.Collectors;
import javax.cache.integration.CacheLoader;

/** A loader that notes what it is asked and answers. */
final class RecordedLoader<K, V> implements CacheLoader<K, V> {
    private final CallRecorder recorder;
    private final CacheLoader<K, V> loader;

    RecordedLoader(CallRecorder recorder, CacheLoader<K, V> loader) {
        this.recorder = recorder;
        this.loader = loader;
    }

    @Override
    public V load(K key) {
        return noted(List.of(key), () -> loader.load(key),
                value -> value == null ? "" : recorder.words.pair(key, value));
    }

    @Override
    public Map<K, V> loadAll(Iterable<? extends K> keys) {
        List<K> asked = new ArrayList<>();
        keys.forEach(asked::add);
        return noted(asked, () -> loader.loadAll(keys), found -> pairs(asked, found == null ? Map.of() : found));
    }

    private String pairs(List<K> asked, Map<K, V> found) {
        return asked.stream().filter(key -> found.get(key) != null)
                .map(key -> recorder.words.pair(key, found.get(key))).collect(Collectors.joining(" "));
    }

    private <T> T noted(List<K> asked, Supplier<T> work, Function<T, String> told) {
        Lines.Buffer lines = recorder.lines.mine();
        RecordedCall call = lines.call;
        Set<String> keys = asked.stream().map(recorder.words::key).collect(Collectors.toCollection(LinkedHashSet::new));
        Load load = new Load(keys, call);
        LongSupplier numbers = recorder.loads.numbers;
        recorder.loads.add(load, lines.note(() -> load.asked(numbers)));
        try {
            T found = work.get();
            String pairs = told.apply(found);
            load.answer(lines.note(() -> ("loads " + load.number(numbers) + " " + pairs).stripTrailing()));
            return found;
        } catch (Throwable e) {
            long code = recorder.failures.note(call, Part.LOADER, e);
            load.answer(lines.note(() -> "loadfails " + load.number(numbers) + " " + code));
            throw e;
        }
    }
}
