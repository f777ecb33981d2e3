package cadwrelch.jcache;

/**
 * What JSR 107's statistics count of a stripe. The core's own counts are others: it doesn't count what an {@code
 * invoke} does as a get. The lock of the stripe guards them. The times are those of the first calls, and later of one
 * call of sixteen: two looks at the clock take nearly as long as a hit.
 */
final class Counts {
    private static final int FIRST_CALLS = 64;
    private static final int CALLS_A_TIMED_ONE = 16;

    long hits;
    long misses;
    long puts;
    long removals;
    long evictions;
    long expirations;
    final Timer gets = new Timer();
    final Timer putTimes = new Timer();
    final Timer removeTimes = new Timer();
    private long calls;

    /** The time that some calls took. */
    static final class Timer {
        long nanos;
        long calls;

        void add(long time) {
            nanos += time;
            calls++;
        }

        private void clear() {
            nanos = 0;
            calls = 0;
        }
    }

    /**
     * The time now, if the call that begins is timed; else 0. It is called with the lock free: then a count may be
     * lost, and that is all.
     */
    long begin() {
        long call = calls++;
        return call < FIRST_CALLS || call % CALLS_A_TIMED_ONE == 0 ? System.nanoTime() | 1 : 0;
    }

    /** A get has found its entry, or that there is none; when it began, if it was timed, else 0. */
    void hit(long began, boolean isThere) {
        if (isThere) {
            hits++;
        } else {
            misses++;
        }
        if (began != 0) {
            gets.add(System.nanoTime() - began);
        }
    }

    /** A joined load is over. */
    void joined(long began) {
        misses++;
        if (began != 0) {
            gets.add(System.nanoTime() - began);
        }
    }

    /** A step was made. */
    void step(Call call) {
        boolean existed = call.before != null;
        boolean isGet = isGet(call.op) && (call.op == Native.INVOKE || call.reply != Native.WRITER_FAILED);
        boolean isPut = isPut(call, existed);
        boolean isRemoval = isRemoval(call, existed);
        if (isGet && existed) {
            hits++;
        } else if (isGet) {
            misses++;
        }
        puts += isPut ? 1 : 0;
        removals += isRemoval ? 1 : 0;
        if (call.began != 0) {
            time(System.nanoTime() - call.began, isGet, isPut, isRemoval);
        }
    }

    private void time(long nanos, boolean isGet, boolean isPut, boolean isRemoval) {
        if (isGet) {
            gets.add(nanos);
        }
        if (isPut) {
            putTimes.add(nanos);
        }
        if (isRemoval) {
            removeTimes.add(nanos);
        }
    }

    private static boolean isGet(int op) {
        switch (op) {
            case Native.GET:
            case Native.GET_AND_PUT:
            case Native.PUT_IF_ABSENT:
            case Native.REMOVE_IF:
            case Native.GET_AND_REMOVE:
            case Native.REPLACE:
            case Native.REPLACE_IF:
            case Native.GET_AND_REPLACE:
            case Native.INVOKE:
                return true;
            default:
                return false;
        }
    }

    /** Whether a call that was made has put a value; its entry existed or not. */
    static boolean isPut(Call call, boolean existed) {
        switch (call.op) {
            case Native.PUT:
            case Native.GET_AND_PUT:
                return !call.hasFailed();
            case Native.PUT_IF_ABSENT:
            case Native.REPLACE:
            case Native.REPLACE_IF:
                return call.isYes();
            case Native.GET_AND_REPLACE:
                return existed && !call.hasFailed();
            case Native.INVOKE:
                return call.effect == Native.SET && !call.hasFailed();
            default:
                return false;
        }
    }

    private static boolean isRemoval(Call call, boolean existed) {
        switch (call.op) {
            case Native.REMOVE:
            case Native.REMOVE_IF:
                return call.isYes();
            case Native.GET_AND_REMOVE:
                return existed && !call.hasFailed();
            case Native.INVOKE:
                return call.effect == Native.TAKE_OUT && !call.hasFailed();
            default:
                return false;
        }
    }

    /** Begins anew. */
    void clear() {
        hits = 0;
        misses = 0;
        puts = 0;
        removals = 0;
        evictions = 0;
        expirations = 0;
        gets.clear();
        putTimes.clear();
        removeTimes.clear();
    }
}
