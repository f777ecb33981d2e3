package cadwrelch.jcache;

import java.util.concurrent.ThreadFactory;

/** Threads that don't keep the virtual machine alive. */
final class DaemonThreads {
    private DaemonThreads() {
    }

    /** Makes threads of this name. */
    static ThreadFactory named(String name) {
        return work -> {
            Thread thread = new Thread(work, name);
            thread.setDaemon(true);
            return thread;
        };
    }
}
