package cadwrelch.jcache;

import java.util.HashMap;
import java.util.Map;

/**
 * Which thread waits for which call: so that a thread whose wait would be for itself, over any number of others, gets
 * an exception instead. Without it two threads would hang whose loaders want each other's key.
 */
final class Waits {
    private static final Map<Thread, Call> WAITS = new HashMap<>();

    private Waits() {
    }

    /**
     * Lists this thread as one that waits for a call, with one of its own.
     *
     * @throws IllegalStateException if that call's thread waits for this one, or is it; then nothing is listed
     */
    static synchronized void enter(Call owner, Call own) {
        Thread me = Thread.currentThread();
        for (Call call = owner; call != null && !call.isOver(); call = WAITS.get(call.thread)) {
            if (call.thread == me) {
                throw new WouldWait("a loader, writer or processor calls the cache at a key that its own call, or one"
                        + " that waits for it, has reserved: it would wait for itself", own);
            }
        }
        WAITS.put(me, owner);
    }

    /** This thread waits no more. */
    static synchronized void leave() {
        WAITS.remove(Thread.currentThread());
    }
}
