package cadwrelch.jcache;

import java.util.ArrayList;
import java.util.List;
import java.util.concurrent.locks.Condition;
import java.util.concurrent.locks.Lock;
import java.util.function.BooleanSupplier;

/**
 * One call at one key, from its first phase to its end. One thread has it. Under the lock of its stripe others read who
 * it is, what it loaded and whether it is over.
 */
final class Call {
    /** Which call it is: {@link Native#GET} and so on. */
    final int op;
    final KeyLookup lookup;
    /** The value that it brings, or that its processor has set, as a writer is given it. */
    Object value;
    /** What would be cached of the value that it brings. */
    final Object stored;
    /** The value that a conditional call compares with. */
    final Object expected;
    final Thread thread = Thread.currentThread();
    /** When it began, if its time is taken; else 0. */
    long began;

    /** The number of what it would cache, or has cached. */
    long version;
    /** The version of the entry that {@link #expected} was compared with, and whether they were equal. */
    long comparedVersion;
    boolean isAsExpected;

    /** What is to be done next: {@link Native#DONE} and so on. */
    int next;
    /** Who has what it needs, if it was refused: a call that has reserved the key; null: a stripe without room. */
    Call blocker;
    Stripe stripe;
    Node node;
    int session;
    /** The reservation, or the load that it has joined, as the core counts them. */
    long ticket;
    long callNumber;
    /** The call whose load it has joined. */
    Call joined;

    /** What the loader answered, what of it would be cached, and that value's number. */
    int loadAnswer;
    Object loaded;
    long loadedVersion;
    /** A processor's net effect, what would be cached of it, and whether it has read what is cached. */
    int effect;
    Object set;
    boolean hasRead;
    int writeAnswer;
    /** What the loader or the writer threw. */
    Throwable cause;
    /** What the processor threw. */
    Throwable fault;

    /** The reply, and the value of it as it is kept. */
    int reply;
    Object answer;
    /** What was cached before the step and after it: null if nothing was. */
    Object before;
    Object after;
    boolean hasChanged;
    /** What the expiry policy is to be asked for the entry after the step, and the entry's version then. */
    Expiry.Due due = Expiry.Due.NOTHING;
    long dueVersion;
    /** Whether what it has found is to be loaded again. */
    boolean isStale;
    /** What its stripe had seen when that had no room for it. */
    long departuresSeen;

    /** Whether it has given its reservation back. Its waiters are signalled then. */
    private volatile boolean isOver;
    private Condition waiters;
    private List<Call> abandoned = List.of();

    /** A call of this thread. Of values that it brings or expects, null is none. */
    Call(int op, KeyLookup lookup, Object value, Object stored, Object expected) {
        this.op = op;
        this.lookup = lookup;
        this.value = value;
        this.stored = stored;
        this.expected = expected;
    }

    /** A call that brings no value. */
    Call(int op, KeyLookup lookup) {
        this(op, lookup, null, null, null);
    }

    Object key() {
        return lookup.key;
    }

    /** The end of a message about it: its key and its cache. */
    String where() {
        return Texts.at(stripe.cacheName(), key());
    }

    boolean isDone() {
        return next == Native.DONE;
    }

    boolean isYes() {
        return reply == Native.YES;
    }

    /** It can't begin, since its entry is out of date and still there: one that only looks for it is answered so. */
    void refuse() {
        next = op == Native.CONTAINS_KEY ? Native.DONE : Native.REFUSED;
        reply = Native.NO;
    }

    boolean hasFailed() {
        return reply >= Native.LOADER_FAILED;
    }

    /**
     * Whether it needs nobody else's reservation to be over, so that it may be made inside a call that has reserved the
     * same key.
     */
    boolean isAtOnce(boolean isCached, boolean readsThrough) {
        return op == Native.CONTAINS_KEY || op == Native.GET && (isCached || !readsThrough);
    }

    /** Whether the entry has to be compared with the expected value before the first phase. */
    boolean hasToCompare(Node at) {
        return expected != null && at.isCached() && !at.isAbsent() && comparedVersion != at.version;
    }

    /** Compares the expected value with what is cached. Called with no lock held. */
    void compare(Copier copier, Object cached, long cachedVersion) {
        isAsExpected = copier.out(cached).equals(expected);
        comparedVersion = cachedVersion;
    }

    /** Whether it only looks at its entry, so that it may find one that is known to be absent. */
    boolean isLook() {
        return op == Native.GET || op == Native.CONTAINS_KEY;
    }

    /** What is known to be absent is nothing to all who have called. */
    void hideAbsent() {
        if (before == Node.ABSENT) {
            before = null;
            reply = op == Native.CONTAINS_KEY ? Native.NO : reply;
        }
        if (after == Node.ABSENT) {
            after = null;
            hasChanged = false;
        }
        if (answer == Node.ABSENT) {
            answer = null;
        }
    }

    /** Whether it has a processor that set a value. */
    boolean hasSet() {
        return op == Native.INVOKE && effect == Native.SET;
    }

    /** The value that its step leaves, if it leaves one: what its processor set, what was loaded for it, or its own. */
    Object brought() {
        if (hasSet()) {
            return set;
        }
        return loaded != null ? loaded : stored;
    }

    /** Notes what the loader answered: a value as it would be cached, null, or what it threw. */
    void setLoaded(Object found, Throwable fault) {
        loaded = found;
        loadAnswer = fault != null ? Native.FAILED : found == null ? Native.NOTHING : Native.FOUND;
        cause = fault;
    }

    /** Notes that the writer has written, or what it threw. */
    void setWritten(Throwable fault) {
        writeAnswer = fault != null ? Native.FAILED : Native.FOUND;
        cause = fault;
    }

    /** It was to be asked for, and that was stopped: what has no answer has failed. */
    void failIfUnanswered(Throwable why) {
        if ((next == Native.ASK_LOADER ? loadAnswer : writeAnswer) != Native.NOT_ASKED) {
            return;
        }
        if (next == Native.ASK_LOADER) {
            setLoaded(null, why);
        } else if (next == Native.PROCESS) {
            effect = Native.PROCESS_FAILED;
            set = null;
            fault = why;
        } else {
            setWritten(why);
        }
    }

    boolean isOver() {
        return isOver;
    }

    // With the lock of the stripe held.

    /**
     * Sleeps until this call is over, or that is of no use any more, for a call of this thread.
     *
     * @throws WouldWait if this call's thread waits for this one, or is it
     */
    void awaitEnd(Lock lock, Call own, BooleanSupplier isUseless) {
        Waits.enter(this, own);
        try {
            while (!isOver && !isUseless.getAsBoolean()) {
                if (waiters == null) {
                    waiters = lock.newCondition();
                }
                waiters.awaitUninterruptibly();
            }
        } finally {
            Waits.leave();
        }
    }

    /** Wakes those who wait for the call. */
    void wake() {
        if (waiters != null) {
            waiters.signalAll();
        }
    }

    /** It has given its reservation back: wakes those who wait for that. */
    void end() {
        isOver = true;
        wake();
    }

    /**
     * Keeps a call that has joined this one's load, and for which nobody waits any more: it is picked up at the end of
     * the load.
     */
    void abandon(Call joiner) {
        if (abandoned.isEmpty()) {
            abandoned = new ArrayList<>();
        }
        abandoned.add(joiner);
    }

    /** The calls that were abandoned; they are its owner's now. */
    List<Call> takeAbandoned() {
        List<Call> taken = abandoned;
        abandoned = List.of();
        return taken;
    }
}
