package cadwrelch.fleet;

import cadwrelch.jcache.Invalidation;
import java.time.Duration;
import java.util.ArrayList;
import java.util.List;
import java.util.Map;
import java.util.Objects;
import java.util.concurrent.CountDownLatch;
import java.util.concurrent.TimeUnit;
import java.util.concurrent.atomic.AtomicLong;
import java.util.function.Consumer;
import java.util.logging.Level;
import java.util.logging.Logger;
import javax.cache.Cache;

/**
 * Keeps a cache in step with a store that others write, too, and that announces each change.
 *
 * <p>Each cached value is the store's, but for keys whose change this instance hasn't been told of yet, and for a write
 * of its own that isn't committed; and what begins after a change was told is answered nothing older, by no entry and no
 * load. If the announcements are lost, or silent for beat and patience together, nothing is kept until they are there
 * again: each call asks the store; with a grace, it is answered what may be older by that time.
 *
 * <p>That holds if the cache reads and writes through, its loader reads the primary, nobody switches the announcements
 * off, the connection that listens goes through no pooler of transactions, and the process isn't stopped. It is tested,
 * and not proved.
 *
 * @param <K> the type of the keys
 */
public final class Fleet<K> implements AutoCloseable {
    private static final Logger LOG = Logger.getLogger("cadwrelch.fleet");
    private static final Duration RETRY = Duration.ofMillis(250);

    private final Cache<K, ?> cache;
    private final Invalidation invalidation;
    private final Announcements<K> announcements;
    private Duration beat = Duration.ofMillis(500);
    private Duration patience = Duration.ofMillis(1500);
    private Duration grace = Duration.ZERO;
    private Consumer<State> onState = state -> { };

    private final Thread thread;
    private final AtomicLong connections = new AtomicLong();
    private final AtomicLong losses = new AtomicLong();
    private final AtomicLong keysTold = new AtomicLong();
    private final AtomicLong everythingTold = new AtomicLong();
    /** Who waits for what was announced before; this object's lock guards them. */
    private List<CountDownLatch> asking = new ArrayList<>();
    private volatile Announcements.Channel<K> channel;
    private volatile State state = State.SUSPENDED;
    /** Whether there is a connection that listens, and the cache has been emptied since. */
    private volatile boolean isHeard;
    private volatile Exception failure;
    private volatile boolean isEnding;

    /** What a fleet does for its cache. */
    public enum State {
        /** Nothing is cached: announcements are lost, or were never there. */
        SUSPENDED,
        /** What is announced is forgotten, and what calls leave is kept. */
        LIVE,
        /** It was closed, and its cache is suspended. */
        CLOSED
    }

    /**
     * A fleet of one cache, which does nothing before {@link #start}.
     *
     * @param cache a cache of the provider {@code cadwrelch.jcache}
     * @param announcements where its store announces changes
     * @throws IllegalArgumentException if it is a cache of another provider
     */
    public Fleet(Cache<K, ?> cache, Announcements<K> announcements) {
        this.cache = Objects.requireNonNull(cache, "cache");
        this.announcements = Objects.requireNonNull(announcements, "announcements");
        invalidation = cache.unwrap(Invalidation.class);
        thread = new Thread(this::run, "cadwrelch-fleet-" + cache.getName());
        thread.setDaemon(true);
    }

    /**
     * How often the connection is probed. Before the start alone.
     *
     * @param beat from 1 ms to 24 h; 0.5 s if it isn't set
     */
    public void setBeat(Duration beat) {
        this.beat = positive("beat", beat);
    }

    /**
     * How long the engine may take to answer, before it counts as lost. Before the start alone.
     *
     * @param patience from 1 ms to 24 h; 1.5 s if it isn't set
     */
    public void setPatience(Duration patience) {
        this.patience = positive("patience", patience);
    }

    /**
     * For how long the cache goes on when announcements are lost. Before the start alone.
     *
     * @param grace from 0 to 24 h; 0 if it isn't set
     */
    public void setGrace(Duration grace) {
        checkNew("grace");
        this.grace = grace.isZero() ? grace : positive("grace", grace);
    }

    /**
     * Who is told of each state, on a thread of the fleet's. Before the start alone.
     *
     * @param onState what it throws is logged
     */
    public void setOnState(Consumer<State> onState) {
        checkNew("onState");
        this.onState = Objects.requireNonNull(onState, "onState");
    }

    private Duration positive(String name, Duration time) {
        if (time.isNegative() || time.toMillis() < 1 || time.toHours() > 24) {
            throw new IllegalArgumentException(name + " is " + time + ": it has to be a time from 1 ms to 24 h");
        }
        checkNew(name);
        return time;
    }

    private void checkNew(String name) {
        if (thread.getState() != Thread.State.NEW) {
            throw new IllegalStateException(name + " is set after the start");
        }
    }

    /**
     * Suspends the cache, connects, and then has it keep what calls leave. It may be called again if it fails; the cache
     * stays suspended then.
     *
     * @throws FleetException if there is no connection, or something isn't as it has to be: the message says what
     * @throws IllegalStateException if it was started or closed before
     */
    public void start() {
        if (thread.getState() != Thread.State.NEW || isEnding) {
            throw new IllegalStateException("a fleet is started once");
        }
        invalidation.suspend();
        Announcements.Channel<K> first;
        try {
            first = announcements.connect(patience);
        } catch (FleetException e) {
            throw e;
        } catch (Exception e) {
            throw new FleetException("the announcements for the cache " + cache.getName()
                    + " can't be listened to: there is no connection. Its address, user and password are to be those"
                    + " of the primary (" + e.getMessage() + ")", e);
        }
        channel = first;
        thread.start();
    }

    // The thread that listens.

    private void run() {
        while (!isEnding && !cache.isClosed()) {
            try {
                if (channel == null) {
                    channel = announcements.connect(patience);
                }
                begin();
                listen();
            } catch (Exception | Error e) {
                note(e);
            }
            lost();
            pause();
        }
        end(State.CLOSED);
    }

    /** Keeps why there is no connection, and logs it, once for each reason. */
    private void note(Throwable why) {
        Exception before = failure;
        failure = why instanceof Exception ? (Exception) why : new IllegalStateException(why);
        boolean isKnown = !isHeard && before != null && Objects.equals(before.getMessage(), failure.getMessage());
        if (!isEnding && !isKnown) {
            LOG.log(Level.WARNING, "the cache " + cache.getName() + " isn't told what others write", failure);
        }
    }

    private void begin() {
        List<CountDownLatch> waiting = takeAsking();
        synchronized (invalidation) {
            connections.incrementAndGet();
            invalidation.resume();
            isHeard = true;
            invalidation.notifyAll();
        }
        waiting.forEach(CountDownLatch::countDown);
        enter(State.LIVE);
    }

    private void listen() throws Exception {
        long due = System.nanoTime() + beat.toNanos();
        while (!isEnding && !cache.isClosed()) {
            long left = due - System.nanoTime();
            List<CountDownLatch> waiting = takeAsking();
            if (left > 0 && waiting.isEmpty()) {
                handle(channel.await(Duration.ofNanos(left)));
                continue;
            }
            handle(probed(waiting));
            waiting.forEach(CountDownLatch::countDown);
            due = System.nanoTime() + beat.toNanos();
        }
    }

    /** Who waits goes on waiting if there is no answer. */
    private Told<K> probed(List<CountDownLatch> waiting) throws Exception {
        try {
            return channel.probe();
        } catch (Exception e) {
            synchronized (this) {
                asking.addAll(waiting);
            }
            throw e;
        }
    }

    private synchronized List<CountDownLatch> takeAsking() {
        List<CountDownLatch> taken = asking;
        asking = taken.isEmpty() ? taken : new ArrayList<>();
        return taken.isEmpty() ? List.of() : taken;
    }

    private void handle(Told<K> told) {
        if (told.isEverything()) {
            everythingTold.incrementAndGet();
            invalidation.invalidateAll();
        } else {
            told.keys().forEach(invalidation::invalidate);
            keysTold.addAndGet(told.keys().size());
        }
    }

    /** The connection is lost: what is changed from here on isn't told. It is closed last, since that may take long. */
    private void lost() {
        Announcements.Channel<K> old = channel;
        channel = null;
        if (isHeard && !isEnding) {
            isHeard = false;
            losses.incrementAndGet();
            suspendAfterGrace(connections.get());
        }
        if (old != null) {
            old.close();
        }
    }

    private void suspendAfterGrace(long connection) {
        if (grace.isZero()) {
            end(State.SUSPENDED);
        } else {
            Thread timer = new Thread(() -> suspendUnlessConnected(connection), thread.getName() + "-grace");
            timer.setDaemon(true);
            timer.start();
        }
    }

    /** When the grace is over, unless there was another connection since this one. */
    private void suspendUnlessConnected(long connection) {
        sleep(grace);
        synchronized (invalidation) {
            if (connections.get() != connection || isEnding) {
                return;
            }
            suspend();
        }
        enter(State.SUSPENDED);
    }

    private void end(State last) {
        isHeard = false;
        suspend();
        enter(last);
    }

    /** Without memory the cache may be suspended in part, so it is tried until all of it is. */
    private void suspend() {
        boolean isSuspended = false;
        while (!isSuspended) {
            try {
                invalidation.suspend();
                isSuspended = true;
            } catch (OutOfMemoryError e) {
                sleep(RETRY);
            }
        }
    }

    private void enter(State next) {
        state = next;
        try {
            onState.accept(next);
        } catch (RuntimeException e) {
            LOG.log(Level.WARNING, "the listener of a fleet's states failed", e);
        }
    }

    private void pause() {
        if (!isEnding) {
            sleep(RETRY);
        }
    }

    private static void sleep(Duration time) {
        try {
            Thread.sleep(time.toMillis());
        } catch (InterruptedException e) {
            // Somebody closes the fleet: its loop looks.
        }
    }

    // What callers ask for.

    /**
     * Waits until all that was announced before has been forgotten: so who was told of a change by the one who made it
     * sees it here. It takes a round trip to the engine; while announcements are lost, until they are there again. Once
     * the fleet is closed it waits for the whole time.
     *
     * @param time how long it may take
     * @return whether it was so within the time
     * @throws InterruptedException if the thread is interrupted
     */
    public boolean catchUp(Duration time) throws InterruptedException {
        CountDownLatch done = new CountDownLatch(1);
        synchronized (this) {
            asking.add(done);
        }
        Announcements.Channel<K> listening = channel;
        if (listening != null) {
            listening.wake();
        }
        return done.await(time.toNanos(), TimeUnit.NANOSECONDS);
    }

    /**
     * Waits until changes are announced.
     *
     * @param time how long it may take
     * @return whether it was so within the time
     * @throws InterruptedException if the thread is interrupted
     */
    public boolean awaitLive(Duration time) throws InterruptedException {
        long end = System.nanoTime() + time.toNanos();
        synchronized (invalidation) {
            long left = end - System.nanoTime();
            while (!isHeard && left > 0) {
                TimeUnit.NANOSECONDS.timedWait(invalidation, left);
                left = end - System.nanoTime();
            }
        }
        return isHeard;
    }

    /**
     * Whether changes are announced, as far as is known.
     *
     * @return false while they are lost, also while there is grace
     */
    public boolean isLive() {
        return isHeard;
    }

    /**
     * What it does for its cache.
     *
     * @return the last state that was told
     */
    public State state() {
        return state;
    }

    /**
     * Why announcements were lost the last time, or why there is no connection.
     *
     * @return null: they never were
     */
    public Exception failure() {
        return failure;
    }

    /**
     * Counts since the start.
     *
     * @return {@code connections}, {@code losses}, {@code keysTold} and {@code everythingTold}
     */
    public Map<String, Long> stats() {
        return Map.of("connections", connections.get(), "losses", losses.get(), "keysTold", keysTold.get(),
                "everythingTold", everythingTold.get());
    }

    /** Ends to listen, and leaves the cache suspended, since it would hear of nothing. It may be called twice. */
    @Override
    public void close() {
        isEnding = true;
        Announcements.Channel<K> listening = channel;
        if (listening != null) {
            listening.close();
        }
        thread.interrupt();
        if (thread.getState() == Thread.State.NEW) {
            end(State.CLOSED);
            return;
        }
        try {
            if (Thread.currentThread() != thread) {
                thread.join(patience.toMillis());
            }
        } catch (InterruptedException e) {
            Thread.currentThread().interrupt();
        }
    }
}
