package cadwrelch.recording;

import java.util.Queue;
import java.util.Set;

/** A call that is recorded: its number, its thread, its keys, and what has failed in it. */
final class RecordedCall {
    /** Which part of a call has failed, with the word for that. */
    enum Part {
        LOADER("LoaderFailed"), WRITER("WriterFailed"), PROCESSOR("ProcessorFailed");

        final String word;

        Part(String word) {
            this.word = word;
        }
    }

    final long number;
    /** The thread that its lines name. */
    final String thread;
    /** Where its thread's name goes back to when it ends; null if other calls of that thread follow this one. */
    private final Queue<String> names;
    /** The words of its keys; null if it is at all keys. */
    private final Set<String> keys;
    /** The part that has failed last, what it has thrown, and that failure's code. Any thread may set them. */
    private volatile Part part;
    private volatile Throwable thrown;
    private volatile long code;
    /** The code of a load that has failed under a processor's {@code getValue}; -1 if there is none. */
    private volatile long failedValue = -1;
    /** When it ended. */
    private volatile long ended = Long.MAX_VALUE;
    /** Whether something happened that the record has no word for; then the call says nothing of its reply. */
    private volatile boolean isUnclear;

    RecordedCall(long number, String thread, Queue<String> names, Set<String> keys) {
        this.number = number;
        this.thread = thread;
        this.names = names;
        this.keys = keys;
    }

    /** Whether it names all of these keys. */
    boolean namesAll(Set<String> asked) {
        return keys == null || keys.containsAll(asked);
    }

    /** Whether it names one of these keys. */
    boolean names(Set<String> asked) {
        return keys == null || asked.stream().anyMatch(keys::contains);
    }

    long ended() {
        return ended;
    }

    /** It has ended: its thread's name may be another call's. */
    void end(long at) {
        ended = at;
        if (names != null) {
            names.add(thread);
        }
    }

    /** Notes that a part of it has failed. */
    void fail(Part failed, Throwable with, long withCode) {
        part = failed;
        thrown = with;
        code = withCode;
    }

    /** Notes that a processor's {@code getValue} has failed by a load. */
    void failValue(long withCode) {
        failedValue = withCode;
    }

    long failedValue() {
        return failedValue;
    }

    /** The part that has failed last; null if none has. */
    Part failedPart() {
        return part;
    }

    /** The code of what this part has thrown last; 0 if it isn't the last one that has failed. */
    long codeOf(Part failed) {
        return part == failed ? code : 0;
    }

    /** Whether the last failure in it is this very object. */
    boolean hasThrown(Throwable it) {
        return thrown == it;
    }

    void makeUnclear() {
        isUnclear = true;
    }

    boolean isUnclear() {
        return isUnclear;
    }
}
