package cadwrelch.recording;

import java.lang.reflect.InvocationHandler;
import java.lang.reflect.InvocationTargetException;
import java.lang.reflect.Method;
import java.util.Iterator;
import java.util.Map;
import java.util.Set;
import javax.cache.Cache;
import javax.cache.integration.CompletionListener;
import javax.cache.processor.EntryProcessor;

/** The calls of a cache: each is noted when it begins and when it has ended. */
final class CallHandler implements InvocationHandler {
    private final CallRecorder recorder;
    private final Cache<?, ?> cache;

    CallHandler(CallRecorder recorder, Cache<?, ?> cache) {
        this.recorder = recorder;
        this.cache = cache;
    }

    @Override
    public Object invoke(Object proxy, Method method, Object[] given) throws Throwable {
        Object[] arguments = given == null ? new Object[0] : given.clone();
        String name = method.getName();
        if (name.equals("iterator")) {
            return new RecordedIterator((Iterator<?>) called(method, arguments));
        }
        CallWords asked = CallWords.of(recorder.words, name, arguments);
        if (asked == null) {
            return called(method, arguments);
        }
        boolean isLoadAll = name.equals("loadAll");
        RecordedCall call = newCall(asked.keys, isLoadAll);
        if (isLoadAll) {
            arguments[2] = new Listener(call, (CompletionListener) arguments[2]);
        } else if (name.startsWith("invoke")) {
            arguments[1] = new RecordedProcessor<>(recorder, (EntryProcessor<?, ?, ?>) arguments[1], call);
        }
        begin(call, asked.text, isLoadAll);
        return made(call, method, arguments, isLoadAll);
    }

    /**
     * The next call. One that needn't take effect before later calls of its thread has a thread of its own in the
     * record: a loadAll, and a call inside a loader, a writer or a processor. When it ends, the next one has its name.
     */
    private RecordedCall newCall(Set<String> keys, boolean isLoadAll) {
        long number = recorder.numbers.incrementAndGet();
        Lines.Buffer lines = recorder.lines.mine();
        if (!isLoadAll && lines.call == null) {
            return new RecordedCall(number, lines.thread(), null, keys);
        }
        String spare = lines.spareNames.poll();
        return new RecordedCall(number, spare == null ? recorder.lines.newName() : spare, lines.spareNames, keys);
    }

    private void begin(RecordedCall call, String asked, boolean isLoadAll) {
        recorder.underWay.put(call.number, call);
        long time = recorder.lines.mine().note(call.thread, () -> "call " + call.number + " " + asked);
        if (isLoadAll) {
            recorder.loads.begin(call, time);
        }
    }

    private Object made(RecordedCall call, Method method, Object[] arguments, boolean isLoadAll) throws Throwable {
        Lines.Buffer lines = recorder.lines.mine();
        RecordedCall former = lines.call;
        lines.call = call;
        try {
            Object result = called(method, arguments);
            if (!isLoadAll) {
                end(call, reply(method, result));
            }
            return result;
        } catch (Throwable e) {
            end(call, recorder.failures.reply(call, e));
            throw e;
        } finally {
            lines.call = former;
        }
    }

    /** Notes the end of a call, if it hasn't ended. */
    private void end(RecordedCall call, String reply) {
        if (recorder.underWay.remove(call.number) == null) {
            return;
        }
        long time = recorder.lines.mine()
                .note(call.thread, () -> "is " + call.number + " " + (call.isUnclear() ? "threw unclear" : reply));
        recorder.loads.end(call, time);
        call.end(time);
    }

    private Object called(Method method, Object[] arguments) throws Throwable {
        try {
            return method.invoke(cache, arguments);
        } catch (InvocationTargetException e) {
            throw e.getCause();
        }
    }

    /** What a call has answered. The results of an invokeAll are in its processors' lines. */
    private String reply(Method method, Object result) {
        if (method.getReturnType() == void.class || method.getName().equals("invokeAll")) {
            return "ok";
        }
        if (method.getName().equals("getAll")) {
            return ("all " + recorder.words.pairs((Map<?, ?>) result)).trim();
        }
        return recorder.words.value(result);
    }

    /** Notes the end of a loadAll, and tells the caller's listener. */
    private final class Listener implements CompletionListener {
        private final RecordedCall call;
        private final CompletionListener listener;

        Listener(RecordedCall call, CompletionListener listener) {
            this.call = call;
            this.listener = listener;
        }

        @Override
        public void onCompletion() {
            end(call, "ok");
            if (listener != null) {
                listener.onCompletion();
            }
        }

        @Override
        public void onException(Exception e) {
            end(call, recorder.failures.reply(call, e));
            if (listener != null) {
                listener.onException(e);
            }
        }
    }

    /** An iterator of the cache, whose {@code remove} is recorded as a call that tells nothing of its reply. */
    private final class RecordedIterator implements Iterator<Cache.Entry<?, ?>> {
        private final Iterator<?> entries;
        private Cache.Entry<?, ?> last;

        RecordedIterator(Iterator<?> entries) {
            this.entries = entries;
        }

        @Override
        public boolean hasNext() {
            return entries.hasNext();
        }

        @Override
        public Cache.Entry<?, ?> next() {
            last = (Cache.Entry<?, ?>) entries.next();
            return last;
        }

        @Override
        public void remove() {
            if (last == null) {
                entries.remove();
                return;
            }
            String key = recorder.words.key(last.getKey());
            RecordedCall call = newCall(Set.of(key), false);
            call.makeUnclear();
            begin(call, "remove " + key, false);
            recorder.lines.inCall(call, () -> {
                entries.remove();
                return null;
            });
            end(call, "");
        }
    }
}
