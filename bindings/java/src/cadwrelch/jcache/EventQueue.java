package cadwrelch.jcache;

import java.util.ArrayDeque;
import java.util.Deque;
import java.util.HashMap;
import java.util.Map;
import java.util.concurrent.locks.ReentrantLock;
import javax.cache.event.CacheEntryListenerException;
import javax.cache.event.EventType;

/**
 * The events of a stripe of which the listeners have not been told. They are noted under the lock of the stripe, in the
 * steps' order, and told with it free, by one thread at a time, in that order. What a listener throws of an event is
 * for the thread whose call has made it, whoever tells.
 */
final class EventQueue<K, V> {
    /**
     * Of a thread that tells listeners: the queues that a listener's own calls have added to. They are told when that
     * listener is through.
     */
    private static final ThreadLocal<Deque<EventQueue<?, ?>>> TELLING = new ThreadLocal<>();

    private final CacheContext<K, V> context;
    /** The lock of the stripe. */
    private final ReentrantLock lock;
    /** Whoever has it tells the listeners. No thread that has reserved a key waits for it. */
    private final ReentrantLock turn = new ReentrantLock();
    /** The first one is told just now, if somebody has the turn. */
    private final Deque<CacheEvent<K, V>> events = new ArrayDeque<>(0);
    /** What listeners threw first of each thread's events, until it takes that. The lock of the stripe guards it. */
    private final Map<Thread, CacheEntryListenerException> faults = new HashMap<>(0);

    EventQueue(CacheContext<K, V> context, ReentrantLock lock) {
        this.context = context;
        this.lock = lock;
    }

    /** Notes an event. The lock of the stripe is held. */
    void add(EventType type, Object key, Object stored, Object before) {
        events.add(new CacheEvent<>(context, type, key, stored, before));
    }

    /**
     * Tells the listeners, so that a call's own events are told when it returns; but the events of calls that a
     * listener makes only when that listener is through, and those of calls inside a loader, a writer or a processor by
     * whoever tells already.
     *
     * @throws CacheEntryListenerException if a synchronous listener threw an exception
     */
    void tell() {
        Deque<EventQueue<?, ?>> later = TELLING.get();
        if (later != null) {
            later.add(this);
            return;
        }
        later = new ArrayDeque<>();
        TELLING.set(later);
        CacheEntryListenerException fault = null;
        try {
            for (EventQueue<?, ?> queue = this; queue != null; queue = later.poll()) {
                fault = queue.tellAll(fault);
            }
        } finally {
            TELLING.remove();
        }
        if (fault != null) {
            throw fault;
        }
    }

    /** Tells all events that are there, or leaves them to who has the turn. Returns the first exception. */
    private CacheEntryListenerException tellAll(CacheEntryListenerException before) {
        if (takeTurn()) {
            do {
                tellInTurn();
                // Who has not got the turn meanwhile has left its events.
            } while (first() != null && turn.tryLock());
        }
        CacheEntryListenerException own = leave();
        return before != null ? before : own;
    }

    /** False: another thread has it, and this one must not wait. */
    private boolean takeTurn() {
        if (Outside.isAsked()) {
            return turn.tryLock();
        }
        turn.lock();
        return true;
    }

    /** Tells all events that are there, and gives the turn back. */
    private void tellInTurn() {
        try {
            for (CacheEvent<K, V> event = first(); event != null; event = first()) {
                CacheEntryListenerException fault = null;
                try {
                    fault = context.listeners.tell(event);
                } finally {
                    endFirst(event, fault);
                }
            }
        } finally {
            turn.unlock();
        }
    }

    private CacheEvent<K, V> first() {
        lock.lock();
        try {
            return events.peek();
        } finally {
            lock.unlock();
        }
    }

    /** The first event was told. What a listener threw is kept for its caller, or logged if that has left. */
    private void endFirst(CacheEvent<K, V> event, CacheEntryListenerException fault) {
        boolean hasLeft;
        lock.lock();
        try {
            events.remove();
            hasLeft = event.caller == null;
            if (fault != null && !hasLeft) {
                faults.putIfAbsent(event.caller, fault);
            }
        } finally {
            lock.unlock();
        }
        if (fault != null && hasLeft) {
            Log.warning("a listener failed", fault);
        }
    }

    /** This thread waits for its events no more. Returns what was thrown of them first, or null. */
    private CacheEntryListenerException leave() {
        Thread me = Thread.currentThread();
        lock.lock();
        try {
            for (CacheEvent<K, V> event : events) {
                event.caller = event.caller == me ? null : event.caller;
            }
            return faults.remove(me);
        } finally {
            lock.unlock();
        }
    }
}
