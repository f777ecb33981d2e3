package cadwrelch.jcache;

import java.util.ArrayList;
import java.util.IdentityHashMap;
import java.util.LinkedHashMap;
import java.util.LinkedHashSet;
import java.util.List;
import java.util.Map;
import java.util.Set;
import javax.cache.processor.EntryProcessor;
import javax.cache.processor.EntryProcessorException;
import javax.cache.processor.EntryProcessorResult;

/** {@code invoke} and {@code invokeAll} (JSR 107, "Entry Processors"). Processors run with no lock held. */
final class Invocations<K, V> {
    private final CacheContext<K, V> context;
    private final Class<V> valueType;

    Invocations(CacheContext<K, V> context, Class<V> valueType) {
        this.context = context;
        this.valueType = valueType;
    }

    /** Runs a processor on a key's entry. */
    <T> T invoke(K key, EntryProcessor<K, V, T> processor, Object... arguments) {
        Call call = new Call(Native.INVOKE, context.copier.lookup(key));
        // It is made before the key is reserved: then nothing is allocated out of reach of a catch.
        ProcessorEntry<K, V> entry = new ProcessorEntry<>(context, call, valueType);
        Stripe stripe = context.stripeOf(call.lookup.hash);
        stripe.begin(call, true);
        T result = entry.run(processor, arguments);
        if (isToBeWritten(call)) {
            context.outside.write(call);
        }
        stripe.end(call);
        context.tellListeners(stripe);
        throwFailureOf(call);
        return result;
    }

    private boolean isToBeWritten(Call call) {
        return context.outside.writesThrough() && (call.effect == Native.SET || call.effect == Native.TAKE_OUT);
    }

    private static void throwFailureOf(Call call) {
        switch (call.reply) {
            case Native.LOADER_FAILED:
                throw ofLoad(call);
            case Native.WRITER_FAILED:
                throw Faults.ofWriter(call.cause, call.where());
            case Native.PROCESSOR_FAILED:
                throw Faults.ofProcessor(call.fault, call.where());
            default:
        }
    }

    /** A failed load is what the processor threw then, or, if it threw nothing, the load's own failure. */
    private static EntryProcessorException ofLoad(Call call) {
        return call.fault != null ? Faults.ofProcessor(call.fault, call.where())
                : new EntryProcessorException(Faults.ofLoader(call.cause, call.where()));
    }

    /**
     * Runs a processor on the entries of these keys, in rounds. In a round the processors run one after another; then
     * the writer is asked once for all that are to be written, and once for all that are to be deleted. A key's failure
     * is its result; an error is thrown when all have ended.
     */
    <T> Map<K, EntryProcessorResult<T>> invokeAll(Set<? extends K> keys, EntryProcessor<K, V, T> processor,
            Object... arguments) {
        List<Call> calls = new ArrayList<>(keys.size());
        new LinkedHashSet<>(keys).forEach(key -> calls.add(new Call(Native.INVOKE, context.copier.lookup(key))));
        Map<Call, T> results = new IdentityHashMap<>();
        BulkCalls bulk = new BulkCalls(context, calls, asked -> {
            for (Call call : asked) {
                results.put(call, new ProcessorEntry<>(context, call, valueType).run(processor, arguments));
            }
            write(asked);
        });
        bulk.run();
        Map<K, EntryProcessorResult<T>> answers = new LinkedHashMap<>();
        for (Call call : calls) {
            EntryProcessorResult<T> answer = answer(call, results.get(call));
            if (answer != null) {
                @SuppressWarnings("unchecked")
                K key = (K) call.key();
                answers.put(key, answer);
            }
        }
        return answers;
    }

    private void write(List<Call> asked) {
        List<Call> written = new ArrayList<>();
        List<Call> deleted = new ArrayList<>();
        for (Call call : asked) {
            if (isToBeWritten(call)) {
                (call.effect == Native.SET ? written : deleted).add(call);
            }
        }
        if (!written.isEmpty()) {
            context.outside.writeAll(written);
        }
        if (!deleted.isEmpty()) {
            context.outside.deleteAll(deleted);
        }
    }

    /** A key's result; null: its processor has returned null. */
    private static <T> EntryProcessorResult<T> answer(Call call, T result) {
        try {
            throwFailureOf(call);
        } catch (RuntimeException e) {
            EntryProcessorException fault = Faults.ofProcessor(e, call.where());
            return () -> {
                throw fault;
            };
        }
        return result == null ? null : () -> result;
    }
}
