package cadwrelch.jcache;

import javax.cache.CacheException;
import javax.cache.integration.CacheLoaderException;
import javax.cache.integration.CacheWriterException;
import javax.cache.processor.EntryProcessorException;

/**
 * What a caller gets for what a loader, a writer or a processor threw: the standard's exceptions as they are, others as
 * their causes. {@code where} is the end of the message, which names the keys and the cache.
 */
final class Faults {
    private Faults() {
    }

    /** Throws errors as they are. */
    private static void throwError(Throwable cause) {
        if (cause instanceof Error) {
            throw (Error) cause;
        }
    }

    /** What a caller gets for what a loader threw; an error is thrown here. */
    static CacheLoaderException ofLoader(Throwable cause, String where) {
        throwError(cause);
        return ofBackground(cause, where);
    }

    /** The same for whom nobody can throw an error at. */
    static CacheLoaderException ofBackground(Throwable cause, String where) {
        return cause instanceof CacheLoaderException ? (CacheLoaderException) cause
                : new CacheLoaderException("the loader failed" + where, cause);
    }

    /** The same of a writer. */
    static CacheWriterException ofWriter(Throwable cause, String where) {
        throwError(cause);
        return cause instanceof CacheWriterException ? (CacheWriterException) cause
                : new CacheWriterException("the writer failed" + where, cause);
    }

    /** The same of a processor. */
    static EntryProcessorException ofProcessor(Throwable cause, String where) {
        throwError(cause);
        return cause instanceof EntryProcessorException ? (EntryProcessorException) cause
                : new EntryProcessorException("the processor failed" + where, cause);
    }

    /** What a caller gets if a copy of a value can't be made. */
    static CacheException ofCopy(CacheException cause, String where) {
        return new CacheException(cause.getMessage() + where, cause.getCause() == null ? cause : cause.getCause());
    }

    /** Throws what a call of one key ended in, if its loader or its writer failed. */
    static void throwFailureOf(Call call) {
        if (call.reply == Native.LOADER_FAILED) {
            throw ofLoader(call.cause, call.where());
        }
        if (call.reply == Native.WRITER_FAILED) {
            throw ofWriter(call.cause, call.where());
        }
    }
}
