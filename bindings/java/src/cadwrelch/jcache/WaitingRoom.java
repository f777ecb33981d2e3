package cadwrelch.jcache;

import java.util.concurrent.locks.Condition;
import java.util.concurrent.locks.ReentrantLock;

/** Those who wait until a call leaves a stripe that has no room for theirs. The lock of the stripe guards it. */
final class WaitingRoom {
    private final ReentrantLock lock;
    /** Null until somebody waits. */
    private Condition left;
    private int waiting;
    /** How many calls have left, and how often all were woken. */
    private long departures;

    WaitingRoom(ReentrantLock lock) {
        this.lock = lock;
    }

    /** Notes in a call what it has seen, before it waits. */
    void note(Call call) {
        call.departuresSeen = departures;
    }

    /**
     * Sleeps until a call has left since the last note of this one.
     *
     * @throws IllegalStateException if this thread is inside of a loader, a writer or a processor
     */
    void await(Call call) {
        if (Outside.isAsked()) {
            throw new WouldWait("a loader, writer or processor calls the cache at a key of a stripe without room: 64"
                    + " keys of it are reserved, or as many calls are under way as its history has room for", call);
        }
        if (left == null) {
            left = lock.newCondition();
        }
        waiting++;
        try {
            while (departures == call.departuresSeen) {
                left.awaitUninterruptibly();
            }
        } finally {
            waiting--;
        }
    }

    /** A call has left, or all are to look again. */
    void wake() {
        departures++;
        if (waiting > 0) {
            left.signalAll();
        }
    }
}
