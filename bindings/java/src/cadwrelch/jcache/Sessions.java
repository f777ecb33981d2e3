package cadwrelch.jcache;

import java.util.Arrays;

/** Numbers of sessions: the core wants that each has one call out at a time. The lock of a stripe guards them. */
final class Sessions {
    /** The session of calls that are done at once. */
    static final int AT_ONCE = 0;

    private int[] free = new int[2];
    private int freeCount;
    private int last = AT_ONCE;

    /** Takes a session. It allocates only if more sessions are out than ever before. */
    int take() {
        if (freeCount > 0) {
            return free[--freeCount];
        }
        if (last == free.length) {
            free = Arrays.copyOf(free, 2 * last);
        }
        return ++last;
    }

    /** Gives a session back. There is always room for it. */
    void give(int session) {
        free[freeCount++] = session;
    }

    /** Whether no session is out. */
    boolean areFree() {
        return freeCount == last;
    }
}
