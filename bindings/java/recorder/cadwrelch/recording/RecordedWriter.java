package cadwrelch.recording;

import cadwrelch.recording.RecordedCall.Part;
import java.util.Collection;
import java.util.List;
import java.util.function.Supplier;
import java.util.stream.Collectors;
import javax.cache.Cache;
import javax.cache.integration.CacheWriter;

/** A writer that notes what it is asked and answers. What it leaves in its collection is noted as not written. */
final class RecordedWriter<K, V> implements CacheWriter<K, V> {
    private final CallRecorder recorder;
    private final CacheWriter<K, V> writer;

    RecordedWriter(CallRecorder recorder, CacheWriter<K, V> writer) {
        this.recorder = recorder;
        this.writer = writer;
    }

    @Override
    public void write(Cache.Entry<? extends K, ? extends V> entry) {
        noted("write", List.of(entry.getKey()), pairs(List.of(entry)), null, () -> writer.write(entry));
    }

    @Override
    public void writeAll(Collection<Cache.Entry<? extends K, ? extends V>> entries) {
        noted("write", keys(entries), pairs(entries), () -> keys(entries), () -> writer.writeAll(entries));
    }

    @Override
    public void delete(Object key) {
        noted("delete", List.of(key), recorder.words.key(key), null, () -> writer.delete(key));
    }

    @Override
    public void deleteAll(Collection<?> keys) {
        noted("delete", keys, recorder.words.keys(keys), () -> keys, () -> writer.deleteAll(keys));
    }

    private String pairs(Collection<? extends Cache.Entry<? extends K, ? extends V>> entries) {
        return entries.stream().map(entry -> recorder.words.pair(entry.getKey(), entry.getValue()))
                .collect(Collectors.joining(" "));
    }

    private static <K> Collection<K> keys(Collection<? extends Cache.Entry<? extends K, ?>> entries) {
        return entries.stream().map(Cache.Entry::getKey).collect(Collectors.toList());
    }

    /** The call of this thread, if it names one of these keys; otherwise nobody is known to have asked. */
    private RecordedCall callAt(Collection<?> keys) {
        RecordedCall call = recorder.lines.mine().call;
        boolean isOfCall = call != null
                && call.names(keys.stream().map(recorder.words::key).collect(Collectors.toSet()));
        return isOfCall ? call : null;
    }

    private void noted(String what, Collection<?> keys, String asked, Supplier<Collection<?>> left, Runnable work) {
        Lines.Buffer lines = recorder.lines.mine();
        RecordedCall call = callAt(keys);
        long owner = call == null ? recorder.numbers.incrementAndGet() : call.number;
        // A change of another program is that of a call which doesn't end: it may come to the store at any later time.
        String other = "call " + owner + (what.equals("write") ? " putall " : " removeall ") + asked + "\n";
        String ask = (call == null ? other : "") + what + " " + owner + " " + asked;
        lines.note(() -> ask);
        String answer;
        try {
            work.run();
            String but = but(left);
            answer = what + "s " + owner + (but.equals(" but") ? "" : but);
        } catch (Throwable e) {
            String failure = what + "fails " + owner + " " + recorder.failures.note(call, Part.WRITER, e) + but(left);
            lines.note(() -> failure);
            throw e;
        }
        lines.note(() -> answer);
    }

    /** The keys that a writer of many has left; nothing of one that was asked for a single key. */
    private String but(Supplier<Collection<?>> left) {
        return left == null ? "" : (" but " + recorder.words.keys(left.get())).stripTrailing();
    }
}
