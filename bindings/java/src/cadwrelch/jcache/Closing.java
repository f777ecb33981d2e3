package cadwrelch.jcache;

import java.io.Closeable;
import javax.cache.configuration.Factory;

/**
 * Closes what a cache was given (JSR 107, {@code Cache.close}), and the caches of a manager. What that throws is of no
 * concern to who closes the cache, or the manager, and is logged.
 */
final class Closing {
    private Closing() {
    }

    /** Closes each that can be closed; null is none. */
    static void quietly(Object... all) {
        for (Object it : all) {
            if (it instanceof Closeable) {
                quietly((Closeable) it);
            }
        }
    }

    /** What a factory makes; null: there is none. If it fails, what was made before it is closed. */
    static <T> T create(Factory<T> factory, Object... before) {
        try {
            return factory == null ? null : factory.create();
        } catch (RuntimeException | Error e) {
            quietly(before);
            throw e;
        }
    }

    private static void quietly(Closeable it) {
        try {
            it.close();
        } catch (Exception | LinkageError e) {
            Log.warning("closing " + it.getClass().getName() + " failed", e);
        }
    }
}
