package cadwrelch.recording;

import cadwrelch.recording.RecordedCall.Part;
import java.util.Collections;
import java.util.IdentityHashMap;
import java.util.Map;
import java.util.concurrent.atomic.AtomicLong;
import javax.cache.integration.CacheLoaderException;
import javax.cache.integration.CacheWriterException;
import javax.cache.processor.EntryProcessorException;

/**
 * What was thrown, by numbers: a failure of a loader, a writer or a processor has a code, by which the calls are known
 * that answer it. It is looked for among the causes of what a call throws.
 */
final class Failures {
    private final Map<Throwable, Long> codes = Collections.synchronizedMap(new IdentityHashMap<>());
    private final AtomicLong count = new AtomicLong();

    /** The code of what a part of a call has thrown, which is noted in the call, if that is known. */
    long note(RecordedCall call, Part part, Throwable thrown) {
        long code = codes.computeIfAbsent(thrown, any -> count.incrementAndGet());
        if (call != null) {
            call.fail(part, thrown, code);
        }
        return code;
    }

    /** The code of the outermost one of these causes that has one; -1 if none has. */
    private long codeAmongCauses(Throwable thrown) {
        Throwable cause = thrown;
        for (int depth = 0; cause != null && depth < 100; depth++) {
            Long code = codes.get(cause);
            if (code != null) {
                return code;
            }
            cause = cause.getCause();
        }
        return -1;
    }

    /**
     * The code of a load that made a processor's {@code getValue} fail; -1 if that was something else. The load is one
     * of this call.
     */
    long ofValue(RecordedCall call, Throwable thrown) {
        if (call.failedPart() != Part.LOADER) {
            return call.failedValue();
        }
        long code = codeAmongCauses(thrown);
        return code >= 0 ? code : thrown instanceof CacheLoaderException ? call.codeOf(Part.LOADER) : -1;
    }

    /** The reply of a call that has thrown: the part that has failed, with its code, or the name of what was thrown. */
    String reply(RecordedCall call, Throwable thrown) {
        Part part = call.isUnclear() ? null : partOf(call, thrown);
        if (part == null) {
            return "threw " + Words.spelled(thrown.getClass().getSimpleName());
        }
        if (part == Part.LOADER && call.failedValue() >= 0) {
            return part.word + " " + call.failedValue();
        }
        long code = codeAmongCauses(thrown);
        return part.word + " " + (code >= 0 ? code : call.codeOf(part));
    }

    /**
     * Which part has failed. A load that fails under a processor is thrown by {@code invoke} as an
     * EntryProcessorException: it is the loader that has failed, whatever the processor has thrown then.
     */
    private static Part partOf(RecordedCall call, Throwable thrown) {
        if (thrown instanceof CacheLoaderException) {
            return Part.LOADER;
        }
        if (thrown instanceof CacheWriterException) {
            return Part.WRITER;
        }
        if (thrown instanceof EntryProcessorException) {
            Part underProcessor = call.failedValue() >= 0 ? Part.LOADER : Part.PROCESSOR;
            return call.failedPart() == Part.WRITER ? Part.WRITER : underProcessor;
        }
        return call.hasThrown(thrown) ? call.failedPart() : null;
    }
}
