package cadwrelch.jcache;

import java.util.List;
import java.util.concurrent.locks.ReentrantLock;
import java.util.function.Supplier;
import java.util.function.ToLongFunction;
import javax.cache.event.EventType;
import javax.cache.expiry.Duration;

/**
 * One stripe of a cache: its lock, the phases of calls under it, and who waits. Nothing of the user's runs with the
 * lock held: no loader, writer, processor, listener or policy, and no method of a key or a value, but for those of the
 * platform's own immutable types.
 */
final class Stripe {
    final ReentrantLock lock = new ReentrantLock();
    private final CacheContext<?, ?> context;
    private final Counts counts = new Counts();
    private final KeyedDesk desk;
    private final NodeFinder finder;
    private final Hiding hiding;
    private final Recorder recorder;
    private final EventQueue<?, ?> events;
    /** Those who wait for any commit, withdrawal or pick-up. */
    private final WaitingRoom room = new WaitingRoom(lock);
    private boolean isClosed;

    /** The stripe of an index, whose events the recorder keeps, if it isn't null. */
    Stripe(CacheContext<?, ?> context, Settings settings, int index, Recorder recorder) {
        this.context = context;
        this.recorder = recorder;
        events = new EventQueue<>(context, lock);
        desk = context.openDesk(lock, settings, index, counts, recorder);
        finder = new NodeFinder(this, desk, context);
        hiding = new Hiding(desk);
    }

    String cacheName() {
        return context.cache.getName();
    }

    // First phases.

    /**
     * A get that finds its entry: what is cached of it, which may be {@link Node#ABSENT}; or null, and nothing was
     * done.
     */
    Object hit(KeyLookup sought) {
        long began = context.hasStatistics ? counts.begin() : 0;
        Expiry.Access access = Expiry.Access.DONE;
        Node node;
        Object stored;
        long version;
        lock.lock();
        try {
            checkOpen();
            node = sought.bytes == null ? finder.find(sought) : null;
            if (context.expiry != null) {
                access = node == null || !node.isShown() ? Expiry.Access.EXPIRED : context.expiry.access(node);
                if (access == Expiry.Access.EXPIRED) {
                    return null;
                }
            }
            stored = desk.hit(sought, node);
            if (stored != null && context.hasStatistics) {
                counts.hit(began, stored != Node.ABSENT);
            }
            version = access == Expiry.Access.DONE ? 0 : node.version;
        } finally {
            lock.unlock();
        }
        if (access != Expiry.Access.DONE) {
            accessed(node, version, access, stored != null);
        }
        return stored;
    }

    /** What a get leads to that has found its entry. */
    private void accessed(Node node, long version, Expiry.Access access, boolean isHit) {
        if (access.asks() && isHit) {
            renew(node, version, Expiry.Due.ACCESS);
        }
        if (access.refreshes()) {
            context.refresh(node.key);
        }
    }

    /**
     * The first phase of a call. Afterwards it is done, or its next says whom to ask or that it has joined a load. If
     * it can't be made now, it waits, or, if it may not, its next is REFUSED: nothing was done.
     *
     * @throws IllegalStateException if the cache is closed, or the call would wait for its own thread
     * @throws StackOverflowError if a last phase could overflow the stack, and leave the key reserved
     */
    void begin(Call call, boolean mayWait) {
        if (!Native.hasStack()) {
            throw new StackOverflowError("a call of a cache begins near the end of the stack");
        }
        call.stripe = this;
        call.began = context.hasStatistics ? counts.begin() : 0;
        lock.lock();
        try {
            while (!tryBegin(call) && mayWait) {
                await(call);
            }
        } finally {
            lock.unlock();
        }
        // While a key is reserved nothing is done that may fail: the call's end does it.
        if (call.isDone()) {
            afterwards(call);
        }
    }

    /** Sleeps until it may be tried again what a first phase has refused. Nothing of the caller's may be out. */
    void awaitTurn(Call call) {
        lock.lock();
        try {
            await(call);
        } finally {
            lock.unlock();
        }
    }

    /** False: it was refused, and nothing was done. */
    private boolean tryBegin(Call call) {
        Node node = finder.locate(call);
        try {
            refuseOwnKey(call, node);
            if (!hiding.isOvertaken(call, node) && expire(call, node)) {
                desk.begin(call, node);
                if (call.next == Native.DONE) {
                    stepped(call);
                    hiding.stepped(node);
                }
            } else {
                call.refuse();
            }
            room.note(call);
            return call.next != Native.REFUSED;
        } finally {
            desk.nodes().dropUnused(node);
        }
    }

    private void refuseOwnKey(Call call, Node node) {
        boolean isOwn = node.owner != null && node.owner.thread == call.thread;
        if (isOwn && !call.isAtOnce(!node.isHidden && desk.isCached(node), context.outside.readsThrough())) {
            throw new WouldWait("a loader, writer or processor calls the cache at the key that it was called for",
                    call);
        }
    }

    // Last phases.

    /** The last phase of a call that has asked its loader, writer or processor, what they answered noted in it. */
    void end(Call call) {
        lock.lock();
        try {
            commit(call);
        } finally {
            lock.unlock();
        }
        afterwards(call);
    }

    /** Whatever happens, nobody waits for the call afterwards. */
    private void commit(Call call) {
        hiding.committing(call.node);
        try {
            desk.commit(call);
            stepped(call);
        } finally {
            endReservation(call);
        }
    }

    /** Gives a call up that has asked nobody. */
    void withdraw(Call call) {
        lock.lock();
        try {
            desk.withdraw(call);
            endReservation(call);
        } finally {
            lock.unlock();
        }
        flushRecord();
    }

    private void endReservation(Call call) {
        call.end();
        List<Call> abandoned = call.takeAbandoned();
        try {
            hiding.released(call.node);
            for (int i = 0; i < abandoned.size(); i++) {
                desk.pickUp(abandoned.get(i));
            }
        } finally {
            left();
        }
    }

    /** Waits for the load that a call has joined. Afterwards it is done, or its next is AGAIN. */
    void pickUp(Call call) {
        lock.lock();
        try {
            if (!call.joined.isOver()) {
                awaitLoad(call);
            }
            pickUpAnswer(call);
        } finally {
            lock.unlock();
        }
        flushRecord();
    }

    private void pickUpAnswer(Call call) {
        try {
            desk.pickUp(call);
            call.hideAbsent();
            if (call.next == Native.DONE && context.hasStatistics) {
                counts.joined(call.began);
            }
        } finally {
            left();
        }
    }

    private void awaitLoad(Call call) {
        try {
            call.joined.awaitEnd(lock, call, () -> false);
        } catch (WouldWait e) {
            call.joined.abandon(call);
            throw e;
        }
    }

    /** Nobody waits for the load that a call has joined any more. */
    void abandon(Call call) {
        lock.lock();
        try {
            if (call.joined.isOver()) {
                pickUpAnswer(call);
            } else {
                call.joined.abandon(call);
            }
        } finally {
            lock.unlock();
        }
        flushRecord();
    }

    /** A call has left: there is room, and perhaps nobody is left. */
    private void left() {
        room.wake();
        if (isClosed) {
            desk.freeIfIdle();
        } else {
            hiding.left();
        }
    }

    // Waiting.

    /** Sleeps until it may be tried again what was refused. */
    private void await(Call call) {
        if (call.blocker == null) {
            room.await(call);
        } else {
            call.blocker.awaitEnd(lock, call, () -> isClosed);
        }
    }

    // What follows a step.

    /** Counts a step and notes its event, with the lock held. */
    private void stepped(Call call) {
        if (context.expiry != null) {
            call.isStale = context.expiry.stepped(call);
            call.hideAbsent();
        }
        if (context.hasStatistics) {
            counts.step(call);
        }
        if (call.hasChanged && call.op != Native.CLEAR && context.hasListeners()) {
            Object kept = call.after != null ? call.after : call.before;
            events.add(typeOf(call), call.node.key, kept, call.before);
        }
        if (context.expiry != null) {
            call.due = context.expiry.due(call);
            call.node.isBeingRenewed |= call.due == Expiry.Due.UPDATE;
            call.dueVersion = call.node.version;
        }
    }

    private static EventType typeOf(Call call) {
        if (call.after == null) {
            return EventType.REMOVED;
        }
        return call.before == null ? EventType.CREATED : EventType.UPDATED;
    }

    /** What is done with the lock free: the expiry policy is asked, and events that were taken are written. */
    private void afterwards(Call call) {
        if (call.due != Expiry.Due.NOTHING) {
            Expiry.Due due = call.due;
            call.due = Expiry.Due.NOTHING;
            renew(call.node, call.dueVersion, due);
        }
        if (call.isStale) {
            context.refresh(call.node.key);
        }
        flushRecord();
    }

    /** Writes the events that were taken. */
    private void flushRecord() {
        if (recorder != null) {
            recorder.flush();
        }
    }

    /** Asks the expiry policy for an entry, which may have another version by now. */
    private void renew(Node node, long version, Expiry.Due due) {
        Duration duration = null;
        try {
            duration = context.expiry.ask(due);
        } finally {
            if (duration != null || due == Expiry.Due.UPDATE) {
                renew(node, version, due, duration);
            }
        }
    }

    /** Notes what the policy has said; null: the entry expires as before. */
    private void renew(Node node, long version, Expiry.Due due, Duration duration) {
        lock.lock();
        try {
            if (node.version != version) {
                return;
            }
            context.expiry.set(node, duration);
            if (duration != null && duration.isZero() && node.owner == null && !isClosed) {
                clearExpired(node, due != Expiry.Due.CREATION);
                desk.nodes().dropUnused(node);
            }
        } finally {
            lock.unlock();
        }
    }

    /**
     * Takes the entry out if it has expired, or, for a call that may change it, is known to be absent. False: somebody
     * has reserved its key, or there is no room; and the call's blocker says which.
     */
    private boolean expire(Call call, Node node) {
        boolean isAbsent = node.isAbsent() && !call.isLook();
        if (context.expiry == null || !isAbsent && !context.expiry.hasExpired(node)) {
            return true;
        }
        call.blocker = node.owner;
        return node.owner == null && clearExpired(node, true);
    }

    private boolean clearExpired(Node node, boolean isTold) {
        Object before = node.stored;
        if (!desk.clear(node)) {
            return false;
        }
        if (isTold && before != Node.ABSENT) {
            counts.expirations++;
            if (context.hasListeners()) {
                events.add(EventType.EXPIRED, node.key, before, before);
            }
        }
        return true;
    }

    /** Takes out all entries that have expired, and whose keys nobody has reserved. How many, as listeners are told. */
    long expire() {
        long before = counts.expirations;
        desk.nodes().forEach(node -> {
            if (node.owner == null && context.expiry.hasExpired(node) && clearExpired(node, true)) {
                desk.nodes().dropUnused(node);
            }
        });
        return counts.expirations - before;
    }

    /** The events that listeners have not been told. */
    EventQueue<?, ?> events() {
        return events;
    }

    // The stripe as a whole.

    /** {@link Invalidation#invalidate}. */
    void invalidate(KeyLookup sought) {
        locked(() -> {
            Node node = finder.find(sought);
            if (node == null && sought.bytes != null && !isClosed) {
                node = desk.add(sought.kept(), sought.hash);
            }
            if (node != null && !isClosed) {
                hiding.invalidate(node);
            }
            return null;
        });
        flushRecord();
    }

    /** Does something with what is hidden, or with the stripe, with the lock held, unless it is closed: then it's 0. */
    long ifOpen(ToLongFunction<Hiding> action) {
        long result = locked(() -> isClosed ? 0 : action.applyAsLong(hiding));
        flushRecord();
        return result;
    }

    private <T> T locked(Supplier<T> body) {
        lock.lock();
        try {
            return body.get();
        } finally {
            lock.unlock();
        }
    }

    /** With the lock held. */
    void checkOpen() {
        if (isClosed) {
            throw new IllegalStateException("the cache " + cacheName() + " is closed");
        }
    }

    /**
     * Later calls, and those that wait to begin, throw; calls under way end, and the last one frees the core's memory.
     */
    void close() {
        locked(() -> {
            isClosed = true;
            room.wake();
            desk.nodes().forEach(node -> {
                if (node.owner != null) {
                    node.owner.wake();
                }
            });
            desk.freeIfIdle();
            return null;
        });
        flushRecord();
    }

    /** The keys that are cached at the moment, with those that are known to be absent, or without. */
    List<Object> keys(boolean withAbsent) {
        return locked(() -> {
            checkOpen();
            return desk.keys(withAbsent);
        });
    }

    /** Reads a count of the statistics. */
    long count(ToLongFunction<Counts> of) {
        return locked(() -> of.applyAsLong(counts));
    }

    /** Begins the statistics anew. */
    void clearCounts() {
        locked(() -> {
            counts.clear();
            return null;
        });
    }

    /**
     * For tests, with the lock held and no call under way: each node has what the core has. Adds the counts of both,
     * and returns how many entries there are.
     */
    int verify(long[] core, long[] host) {
        int cached = desk.verify();
        long[] coreCounts = desk.coreCounts();
        long[] own = {counts.hits, counts.misses, counts.puts, counts.removals, counts.evictions};
        for (int i = 0; i < own.length; i++) {
            core[i] += coreCounts[i];
            host[i] += own[i];
        }
        return cached;
    }
}
