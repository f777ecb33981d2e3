package cadwrelch.tests;

import java.io.Closeable;
import java.util.ArrayList;
import java.util.Collection;
import java.util.HashMap;
import java.util.Iterator;
import java.util.List;
import java.util.Map;
import java.util.Set;
import java.util.concurrent.ConcurrentHashMap;
import java.util.concurrent.CountDownLatch;
import java.util.concurrent.atomic.AtomicInteger;
import java.util.stream.Collectors;
import javax.cache.Cache;
import javax.cache.integration.CacheLoader;
import javax.cache.integration.CacheWriter;

/** A store of record in memory, as loader and writer. It counts its calls, and fails or waits if a test says so. */
final class Store<K, V> implements CacheLoader<K, V>, CacheWriter<K, V>, Closeable {
    final Map<K, V> map = new ConcurrentHashMap<>();
    /** How often each method was called. */
    final AtomicInteger loads = new AtomicInteger();
    final AtomicInteger loadAlls = new AtomicInteger();
    final AtomicInteger writes = new AtomicInteger();
    final AtomicInteger writeAlls = new AtomicInteger();
    final AtomicInteger deletes = new AtomicInteger();
    final AtomicInteger deleteAlls = new AtomicInteger();
    /** What each call throws before it does anything, if it isn't null. */
    volatile Throwable fault;
    /** The keys that a writer of many keys leaves, and then throws. */
    volatile Set<K> refused = Set.of();
    /** Whether {@code loadAll} answers null, as no loader should. */
    volatile boolean answersNull;
    volatile boolean closed;
    /** The keys of the last call of many keys, in its order. */
    volatile List<Object> lastBatch = List.of();
    private volatile Gate gate;

    /** A gate at which calls of a store wait. */
    static final class Gate {
        private final CountDownLatch entered = new CountDownLatch(1);
        private final CountDownLatch opened = new CountDownLatch(1);

        /** Comes to the gate, and waits until it is open. */
        void pass() {
            entered.countDown();
            Background.await(opened);
        }

        /** Waits until a call has come to the gate. */
        void awaitCall() {
            Background.await(entered);
        }

        /** Lets through who waits. */
        void open() {
            opened.countDown();
        }
    }

    /** From now on each call waits at a new gate, until it is opened. */
    Gate shut() {
        gate = new Gate();
        return gate;
    }

    /** Later calls don't wait; those that do are let through. */
    void open() {
        Gate old = gate;
        gate = null;
        old.open();
    }

    /** Later calls don't wait; those that do stay at their gate. */
    void passBy() {
        gate = null;
    }

    private void pass() {
        Gate here = gate;
        if (here != null) {
            here.pass();
        }
        if (fault != null) {
            Store.<RuntimeException>sneak(fault);
        }
    }

    /** Throws anything, as a loader in another language of the virtual machine may. */
    @SuppressWarnings("unchecked")
    private static <T extends Throwable> void sneak(Throwable it) throws T {
        throw (T) it;
    }

    @Override
    public V load(K key) {
        loads.incrementAndGet();
        pass();
        return map.get(key);
    }

    @Override
    public Map<K, V> loadAll(Iterable<? extends K> keys) {
        loadAlls.incrementAndGet();
        pass();
        List<Object> batch = new ArrayList<>();
        keys.forEach(batch::add);
        lastBatch = batch;
        Map<K, V> found = new HashMap<>();
        keys.forEach(key -> found.put(key, map.get(key)));
        return answersNull ? null : found;
    }

    @Override
    public void write(Cache.Entry<? extends K, ? extends V> entry) {
        writes.incrementAndGet();
        pass();
        map.put(entry.getKey(), entry.getValue());
    }

    @Override
    public void writeAll(Collection<Cache.Entry<? extends K, ? extends V>> entries) {
        writeAlls.incrementAndGet();
        pass();
        lastBatch = entries.stream().map(Cache.Entry::getKey).collect(Collectors.toList());
        for (Iterator<Cache.Entry<? extends K, ? extends V>> each = entries.iterator(); each.hasNext();) {
            Cache.Entry<? extends K, ? extends V> entry = each.next();
            if (!refused.contains(entry.getKey())) {
                map.put(entry.getKey(), entry.getValue());
                each.remove();
            }
        }
        checkDone(entries);
    }

    @Override
    public void delete(Object key) {
        deletes.incrementAndGet();
        pass();
        map.remove(key);
    }

    @Override
    public void deleteAll(Collection<?> keys) {
        deleteAlls.incrementAndGet();
        pass();
        lastBatch = List.copyOf(keys);
        for (Iterator<?> each = keys.iterator(); each.hasNext();) {
            Object key = each.next();
            if (!refused.contains(key)) {
                map.remove(key);
                each.remove();
            }
        }
        checkDone(keys);
    }

    private static void checkDone(Collection<?> left) {
        if (!left.isEmpty()) {
            throw new IllegalStateException("in part");
        }
    }

    @Override
    public void close() {
        closed = true;
    }

    /** How often loader and writer were called for one key, in all. */
    int calls() {
        return loads.get() + writes.get() + deletes.get();
    }

    /** How often they were called for many. */
    int batches() {
        return loadAlls.get() + writeAlls.get() + deleteAlls.get();
    }
}
