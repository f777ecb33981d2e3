package cadwrelch.jcache;

import java.lang.System.Logger.Level;

/** What no caller can be told is logged. */
final class Log {
    private static final System.Logger LOGGER = System.getLogger("cadwrelch.jcache");

    private Log() {
    }

    static void warning(String what, Throwable cause) {
        LOGGER.log(Level.WARNING, what, cause);
    }
}
