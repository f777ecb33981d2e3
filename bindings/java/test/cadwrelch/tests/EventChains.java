package cadwrelch.tests;

import static cadwrelch.tests.Check.equal;
import static cadwrelch.tests.Check.holds;

import java.util.ArrayList;
import java.util.Collections;
import java.util.HashMap;
import java.util.List;
import java.util.Map;
import java.util.Random;
import java.util.TreeMap;
import java.util.concurrent.TimeUnit;
import javax.cache.Cache;
import javax.cache.configuration.MutableCacheEntryListenerConfiguration;
import javax.cache.configuration.MutableConfiguration;
import javax.cache.event.CacheEntryCreatedListener;
import javax.cache.event.CacheEntryEvent;
import javax.cache.event.CacheEntryExpiredListener;
import javax.cache.event.CacheEntryRemovedListener;
import javax.cache.event.CacheEntryUpdatedListener;
import javax.cache.expiry.Duration;
import javax.cache.expiry.ModifiedExpiryPolicy;
import cadwrelch.tests.Background.Work;
import cadwrelch.tests.Check.Test;

/**
 * Random calls of many threads, whose entries also expire, and what a listener is told of them: at each key the events
 * are a chain, in which each one begins with what the one before has left.
 */
final class EventChains {
    private EventChains() {}

    private static final int CALLS = Integer.getInteger("stress.calls", 5000);
    private static final int KEYS = 8;

    /** What a listener was told of each key. */
    private static final class Chains
            implements CacheEntryCreatedListener<Integer, Long>, CacheEntryUpdatedListener<Integer, Long>,
                    CacheEntryRemovedListener<Integer, Long>, CacheEntryExpiredListener<Integer, Long> {
        private final Map<Integer, Long> last = new HashMap<>();
        private final Map<String, Integer> counts = new TreeMap<>();
        private final List<String> breaks = Collections.synchronizedList(new ArrayList<>());

        private synchronized void add(Iterable<CacheEntryEvent<? extends Integer, ? extends Long>> events) {
            events.forEach(this::add);
        }

        private void add(CacheEntryEvent<? extends Integer, ? extends Long> event) {
            counts.merge(event.getEventType().name(), 1, Integer::sum);
            Long before = last.get(event.getKey());
            Long expected = event.isOldValueAvailable() ? event.getOldValue() : null;
            if (before == null ? expected != null : !before.equals(expected)) {
                breaks.add(event.getEventType() + " " + event.getKey() + ": " + expected + " after " + before);
            }
            switch (event.getEventType()) {
                case CREATED:
                case UPDATED:
                    last.put(event.getKey(), event.getValue());
                    break;
                default:
                    last.remove(event.getKey());
            }
        }

        @Override
        public void onCreated(Iterable<CacheEntryEvent<? extends Integer, ? extends Long>> events) {
            add(events);
        }

        @Override
        public void onUpdated(Iterable<CacheEntryEvent<? extends Integer, ? extends Long>> events) {
            add(events);
        }

        @Override
        public void onRemoved(Iterable<CacheEntryEvent<? extends Integer, ? extends Long>> events) {
            add(events);
        }

        @Override
        public void onExpired(Iterable<CacheEntryEvent<? extends Integer, ? extends Long>> events) {
            add(events);
        }
    }

    private static void call(Cache<Integer, Long> cache, Random random) throws InterruptedException {
        int key = random.nextInt(KEYS);
        long value = random.nextInt(1000);
        switch (random.nextInt(8)) {
            case 0:
                cache.put(key, value);
                break;
            case 1:
                cache.putIfAbsent(key, value);
                break;
            case 2:
                cache.remove(key);
                break;
            case 3:
                cache.getAndReplace(key, value);
                break;
            case 4:
                cache.invoke(key, (entry, arguments) -> {
                    entry.setValue(entry.exists() ? entry.getValue() + 1 : 0);
                    return null;
                });
                break;
            case 5:
                cache.putAll(Map.of(key, value, (key + 1) % KEYS, value + 1));
                break;
            case 6:
                cache.get(key);
                break;
            default:
                if (value < 50) {
                    Thread.sleep(2);
                }
        }
    }

    @Test
    static void eventsOfAKeyAreAChain() throws Exception {
        Chains chains = new Chains();
        Cache<Integer, Long> cache = Caches.create(new MutableConfiguration<Integer, Long>()
                .setTypes(Integer.class, Long.class)
                .setExpiryPolicyFactory(ModifiedExpiryPolicy.factoryOf(new Duration(TimeUnit.MILLISECONDS, 1)))
                .addCacheEntryListenerConfiguration(new MutableCacheEntryListenerConfiguration<>(() -> chains, null,
                        true, true)));
        List<Work<Void>> all = new ArrayList<>();
        for (int thread = 0; thread < 8; thread++) {
            Random random = new Random(thread);
            all.add(Background.start(() -> {
                for (int i = 0; i < CALLS; i++) {
                    call(cache, random);
                }
            }));
        }
        Background.results(all);
        System.out.println(chains.counts);
        equal("each event begins with what the one before has left", List.of(), chains.breaks);
        equal("there were events of each kind", 4, chains.counts.size());
        Map<Integer, Long> contents = new HashMap<>();
        cache.forEach(entry -> contents.put(entry.getKey(), entry.getValue()));
        holds("and what is cached is what they have left", chains.last.entrySet().containsAll(contents.entrySet()));
    }
}
