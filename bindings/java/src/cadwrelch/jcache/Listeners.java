package cadwrelch.jcache;

import java.util.List;
import java.util.concurrent.CopyOnWriteArrayList;
import java.util.concurrent.LinkedBlockingQueue;
import java.util.concurrent.RejectedExecutionException;
import java.util.concurrent.ThreadPoolExecutor;
import java.util.concurrent.TimeUnit;
import javax.cache.configuration.CacheEntryListenerConfiguration;
import javax.cache.event.CacheEntryCreatedListener;
import javax.cache.event.CacheEntryEvent;
import javax.cache.event.CacheEntryEventFilter;
import javax.cache.event.CacheEntryExpiredListener;
import javax.cache.event.CacheEntryListener;
import javax.cache.event.CacheEntryListenerException;
import javax.cache.event.CacheEntryRemovedListener;
import javax.cache.event.CacheEntryUpdatedListener;

/** The listeners of a cache (JSR 107, "Cache Entry Listeners"). They are called with no stripe's lock held. */
final class Listeners<K, V> {
    private static final int IDLE_SECONDS = 10;

    private final List<Registration<K, V>> all = new CopyOnWriteArrayList<>();
    /** One thread, while there is work: it tells the listeners that aren't synchronous, in the events' order. */
    private final ThreadPoolExecutor later;

    /** No listeners of a cache. */
    Listeners(String cacheName) {
        later = new ThreadPoolExecutor(1, 1, IDLE_SECONDS, TimeUnit.SECONDS, new LinkedBlockingQueue<>(),
                DaemonThreads.named("cadwrelch-listeners-" + cacheName));
        later.allowCoreThreadTimeOut(true);
    }

    /** A listener and its filter. */
    private static final class Registration<K, V> {
        final CacheEntryListenerConfiguration<K, V> configuration;
        final CacheEntryListener<K, V> listener;
        final CacheEntryEventFilter<K, V> filter;

        /** A listener of super types is given events of the cache's types, which it only reads. */
        @SuppressWarnings("unchecked")
        Registration(CacheEntryListenerConfiguration<K, V> configuration) {
            this.configuration = configuration;
            listener = (CacheEntryListener<K, V>) configuration.getCacheEntryListenerFactory().create();
            filter = (CacheEntryEventFilter<K, V>) Closing.create(configuration.getCacheEntryEventFilterFactory(),
                    listener);
        }

        /** Tells it of an event, if its filter lets that through and it listens to events of that type. */
        void tell(CacheEntryEvent<K, V> event) {
            if (filter != null && !filter.evaluate(event)) {
                return;
            }
            List<CacheEntryEvent<? extends K, ? extends V>> events = List.of(event);
            switch (event.getEventType()) {
                case CREATED:
                    if (listener instanceof CacheEntryCreatedListener) {
                        ((CacheEntryCreatedListener<K, V>) listener).onCreated(events);
                    }
                    break;
                case UPDATED:
                    if (listener instanceof CacheEntryUpdatedListener) {
                        ((CacheEntryUpdatedListener<K, V>) listener).onUpdated(events);
                    }
                    break;
                case REMOVED:
                    if (listener instanceof CacheEntryRemovedListener) {
                        ((CacheEntryRemovedListener<K, V>) listener).onRemoved(events);
                    }
                    break;
                default:
                    if (listener instanceof CacheEntryExpiredListener) {
                        ((CacheEntryExpiredListener<K, V>) listener).onExpired(events);
                    }
            }
        }
    }

    /**
     * Registers a listener.
     *
     * @throws IllegalArgumentException if it is registered
     */
    void add(CacheEntryListenerConfiguration<K, V> configuration) {
        if (all.stream().anyMatch(it -> it.configuration.equals(configuration))) {
            throw new IllegalArgumentException("the listener is registered already");
        }
        all.add(new Registration<>(configuration));
    }

    void remove(CacheEntryListenerConfiguration<K, V> configuration) {
        all.removeIf(it -> it.configuration.equals(configuration));
    }

    boolean isEmpty() {
        return all.isEmpty();
    }

    /** Tells all listeners of an event. Returns the first exception of a synchronous one, or null. */
    CacheEntryListenerException tell(CacheEntryEvent<K, V> event) {
        CacheEntryListenerException fault = null;
        for (Registration<K, V> it : all) {
            if (!it.configuration.isSynchronous()) {
                tellLater(it, event);
                continue;
            }
            try {
                it.tell(event);
            } catch (CacheEntryListenerException e) {
                fault = fault == null ? e : fault;
            } catch (RuntimeException e) {
                fault = fault == null ? new CacheEntryListenerException("a listener failed", e) : fault;
            }
        }
        return fault;
    }

    private void tellLater(Registration<K, V> to, CacheEntryEvent<K, V> event) {
        try {
            later.execute(() -> {
                try {
                    to.tell(event);
                } catch (RuntimeException e) {
                    Log.warning("a listener failed", e);
                }
            });
        } catch (RejectedExecutionException e) {
            // The cache is closed: nobody is told any more.
        }
    }

    /** Nobody is told any more, also of what has happened before; and all are closed. */
    void close() {
        List<Registration<K, V>> registered = List.copyOf(all);
        all.clear();
        later.shutdown();
        later.getQueue().clear();
        registered.forEach(it -> Closing.quietly(it.listener, it.filter));
    }
}
