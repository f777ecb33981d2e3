package cadwrelch.recording;

import cadwrelch.recording.RecordedCall.Part;
import javax.cache.processor.EntryProcessor;
import javax.cache.processor.MutableEntry;

/** A processor whose calls on its entry are noted in one line, once it has ended. */
final class RecordedProcessor<K, V, T> implements EntryProcessor<K, V, T> {
    private final CallRecorder recorder;
    private final EntryProcessor<K, V, T> processor;
    private final RecordedCall call;

    RecordedProcessor(CallRecorder recorder, EntryProcessor<K, V, T> processor, RecordedCall call) {
        this.recorder = recorder;
        this.processor = processor;
        this.call = call;
    }

    @Override
    public T process(MutableEntry<K, V> entry, Object... arguments) {
        StringBuilder told = new StringBuilder("process " + call.number + " " + recorder.words.key(entry.getKey()));
        try {
            T result = processor.process(new Entry(entry, told), arguments);
            end(told.append(" returns=").append(recorder.words.value(result)));
            return result;
        } catch (Throwable e) {
            end(told.append(" fails=").append(codeOf(e)));
            throw e;
        }
    }

    /** What goes through a processor from a load that has failed keeps that load's code. */
    private long codeOf(Throwable thrown) {
        boolean isOfLoad = call.failedValue() >= 0 && recorder.failures.ofValue(call, thrown) == call.failedValue();
        return isOfLoad ? call.failedValue() : recorder.failures.note(call, Part.PROCESSOR, thrown);
    }

    private void end(StringBuilder told) {
        String line = told.toString();
        if (!call.isUnclear()) {
            recorder.lines.mine().note(() -> line);
        }
    }

    /** The entry that the processor sees. */
    private final class Entry implements MutableEntry<K, V> {
        private final MutableEntry<K, V> entry;
        private final StringBuilder told;

        Entry(MutableEntry<K, V> entry, StringBuilder told) {
            this.entry = entry;
            this.told = told;
        }

        @Override
        public K getKey() {
            return entry.getKey();
        }

        @Override
        public V getValue() {
            try {
                V value = entry.getValue();
                told.append(" get=").append(recorder.words.value(value));
                return value;
            } catch (Throwable e) {
                fail(recorder.failures.ofValue(call, e));
                throw e;
            }
        }

        private void fail(long code) {
            if (code < 0) {
                call.makeUnclear();
            } else {
                call.failValue(code);
                told.append(" getfails=").append(code);
            }
        }

        @Override
        public boolean exists() {
            boolean isThere = entry.exists();
            told.append(" exists=").append(isThere);
            return isThere;
        }

        @Override
        public void setValue(V value) {
            entry.setValue(value);
            told.append(" set=").append(recorder.words.value(value));
        }

        @Override
        public void remove() {
            entry.remove();
            told.append(" remove");
        }

        @Override
        public <U> U unwrap(Class<U> type) {
            return entry.unwrap(type);
        }
    }
}
