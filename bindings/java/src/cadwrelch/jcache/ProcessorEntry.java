package cadwrelch.jcache;

import java.util.Objects;
import javax.cache.processor.EntryProcessor;
import javax.cache.processor.MutableEntry;

/**
 * The entry that a processor works on (JSR 107, "Entry Processors"), for a call that has reserved its key. The cache
 * and the store hear of the net effect alone, after the processor has returned. A processor that creates an entry and
 * removes it again has done nothing, as in the reference implementation.
 */
final class ProcessorEntry<K, V> implements MutableEntry<K, V> {
    private final CacheContext<K, V> context;
    private final Call call;
    private final K key;
    private final Class<V> valueType;
    private int effect = Native.KEEP;
    private V set;
    /** It was created and removed again. */
    private boolean isUndone;

    /** The entry of a call whose processor is to be run. Values that it sets are of this type. */
    @SuppressWarnings("unchecked")
    ProcessorEntry(CacheContext<K, V> context, Call call, Class<V> valueType) {
        this.context = context;
        this.call = call;
        this.key = (K) call.key();
        this.valueType = valueType;
    }

    /** Runs the processor, and notes its net effect, or what it threw, in the call. Returns what the processor did. */
    <T> T run(EntryProcessor<K, V, T> processor, Object... arguments) {
        T result = null;
        try {
            result = Outside.ask(() -> processor.process(this, arguments));
            if (!hasFailedToLoad() && effect == Native.SET) {
                call.set = context.valueIn(key, set);
                call.value = set;
            }
            call.effect = hasFailedToLoad() ? Native.PROCESS_FAILED : effect;
        } catch (Throwable e) {
            call.effect = Native.PROCESS_FAILED;
            call.set = null;
            call.fault = e;
        }
        return result;
    }

    private boolean hasFailedToLoad() {
        return call.loadAnswer == Native.FAILED;
    }

    @Override
    public K getKey() {
        return key;
    }

    @Override
    public boolean exists() {
        boolean isThere = call.before != null || call.loaded != null;
        return effect == Native.SET || effect == Native.KEEP && !isUndone && isThere;
    }

    @Override
    public V getValue() {
        if (effect != Native.KEEP || isUndone) {
            return set;
        }
        if (call.before != null) {
            call.hasRead = true;
            return context.valueOut(call.before);
        }
        if (call.loadAnswer == Native.NOT_ASKED && context.outside.readsThrough()) {
            context.outside.load(call);
        }
        if (hasFailedToLoad()) {
            throw Faults.ofLoader(call.cause, call.where());
        }
        return context.valueOut(call.loaded);
    }

    @Override
    public void setValue(V value) {
        Objects.requireNonNull(value, "value");
        valueType.cast(value);
        if (!hasFailedToLoad()) {
            effect = Native.SET;
            set = value;
        }
    }

    @Override
    public void remove() {
        if (!hasFailedToLoad()) {
            isUndone = effect == Native.SET && call.before == null && call.loaded == null;
            effect = isUndone ? Native.KEEP : Native.TAKE_OUT;
            set = null;
        }
    }

    @Override
    public <T> T unwrap(Class<T> type) {
        return Unwrap.as(this, type);
    }
}
