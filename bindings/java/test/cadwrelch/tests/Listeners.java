package cadwrelch.tests;

import static cadwrelch.tests.Check.equal;
import static cadwrelch.tests.Check.holds;
import static cadwrelch.tests.Check.same;
import static cadwrelch.tests.Check.thrown;

import java.io.Closeable;
import java.util.ArrayList;
import java.util.Collections;
import java.util.List;
import java.util.Map;
import java.util.Set;
import java.util.concurrent.CountDownLatch;
import java.util.concurrent.TimeUnit;
import java.util.concurrent.atomic.AtomicBoolean;
import javax.cache.Cache;
import javax.cache.CacheManager;
import javax.cache.configuration.CacheEntryListenerConfiguration;
import javax.cache.configuration.Factory;
import javax.cache.configuration.MutableCacheEntryListenerConfiguration;
import javax.cache.configuration.MutableConfiguration;
import javax.cache.event.CacheEntryCreatedListener;
import javax.cache.event.CacheEntryEvent;
import javax.cache.event.CacheEntryEventFilter;
import javax.cache.event.CacheEntryExpiredListener;
import javax.cache.event.CacheEntryListener;
import javax.cache.event.CacheEntryListenerException;
import javax.cache.event.CacheEntryRemovedListener;
import javax.cache.event.CacheEntryUpdatedListener;
import javax.cache.expiry.CreatedExpiryPolicy;
import javax.cache.expiry.Duration;
import javax.cache.integration.CompletionListenerFuture;
import cadwrelch.tests.Background.Work;
import cadwrelch.tests.Check.Test;

/** Which events which call makes, in which order, and who is told when. */
final class Listeners {
    private Listeners() {}

    /**
     * A listener of all kinds that writes down what it is told: {@code CREATED 1=a<-}, a key, its value and the one
     * before.
     */
    private static final class Log
            implements CacheEntryCreatedListener<Long, String>, CacheEntryUpdatedListener<Long, String>,
                    CacheEntryRemovedListener<Long, String>, CacheEntryExpiredListener<Long, String>, Closeable {
        private final List<String> lines = Collections.synchronizedList(new ArrayList<>());
        volatile boolean closed;

        private void add(Iterable<CacheEntryEvent<? extends Long, ? extends String>> events) {
            for (CacheEntryEvent<? extends Long, ? extends String> event : events) {
                lines.add(event.getEventType() + " " + event.getKey() + "=" + event.getValue() + "<"
                        + (event.isOldValueAvailable() ? event.getOldValue() : "-"));
            }
        }

        @Override
        public void onCreated(Iterable<CacheEntryEvent<? extends Long, ? extends String>> events) {
            add(events);
        }

        @Override
        public void onUpdated(Iterable<CacheEntryEvent<? extends Long, ? extends String>> events) {
            add(events);
        }

        @Override
        public void onRemoved(Iterable<CacheEntryEvent<? extends Long, ? extends String>> events) {
            add(events);
        }

        @Override
        public void onExpired(Iterable<CacheEntryEvent<? extends Long, ? extends String>> events) {
            add(events);
        }

        @Override
        public void close() {
            closed = true;
        }

        /** What it was told since the last time. */
        List<String> take() {
            synchronized (lines) {
                List<String> taken = List.copyOf(lines);
                lines.clear();
                return taken;
            }
        }
    }

    private static CacheEntryListenerConfiguration<Long, String> synchronous(
            CacheEntryListener<Long, String> listener) {
        return new MutableCacheEntryListenerConfiguration<>(() -> listener, null, true, true);
    }

    private static Cache<Long, String> listened(Log log) {
        Cache<Long, String> cache = Caches.plain(Long.class, String.class);
        cache.registerCacheEntryListener(synchronous(log));
        return cache;
    }

    @Test
    static void eventsByOperation() {
        Log log = new Log();
        Cache<Long, String> cache = listened(log);
        cache.put(1L, "a");
        equal("put of a new key creates", List.of("CREATED 1=a<-"), log.take());
        cache.put(1L, "b");
        equal("put of a key that is there updates", List.of("UPDATED 1=b<a"), log.take());
        cache.get(1L);
        cache.get(9L);
        equal("get is no event", List.of(), log.take());
        cache.getAndPut(1L, "c");
        equal("getAndPut updates", List.of("UPDATED 1=c<b"), log.take());
        cache.putIfAbsent(1L, "z");
        equal("putIfAbsent of a key that is there is no event", List.of(), log.take());
        cache.putIfAbsent(2L, "a");
        equal("and creates a new one", List.of("CREATED 2=a<-"), log.take());
        cache.replace(1L, "no", "d");
        cache.replace(9L, "d");
        equal("a replace that replaces nothing is no event", List.of(), log.take());
        cache.replace(1L, "c", "d");
        equal("replace(key, old, new) updates", List.of("UPDATED 1=d<c"), log.take());
        cache.replace(1L, "e");
        equal("and replace(key, value)", List.of("UPDATED 1=e<d"), log.take());
        cache.getAndReplace(1L, "f");
        equal("and getAndReplace", List.of("UPDATED 1=f<e"), log.take());
        cache.remove(1L, "no");
        cache.remove(9L);
        equal("a remove that removes nothing is no event", List.of(), log.take());
        cache.remove(1L, "f");
        equal("remove(key, old) removes", List.of("REMOVED 1=f<f"), log.take());
        cache.getAndRemove(2L);
        equal("and so does getAndRemove", List.of("REMOVED 2=a<a"), log.take());
    }

    @Test
    static void eventsOfCallsOfManyKeys() {
        Log log = new Log();
        Cache<Long, String> cache = listened(log);
        cache.putAll(Map.of(7L, "s"));
        equal("putAll creates", List.of("CREATED 7=s<-"), log.take());
        cache.putAll(Map.of(7L, "t"));
        equal("or updates", List.of("UPDATED 7=t<s"), log.take());
        cache.removeAll(Set.of(7L, 9L));
        equal("removeAll(keys) removes what is there", List.of("REMOVED 7=t<t"), log.take());
        cache.put(8L, "u");
        log.take();
        cache.removeAll();
        equal("and so does removeAll()", List.of("REMOVED 8=u<u"), log.take());
        cache.put(8L, "u");
        log.take();
        cache.clear();
        equal("clear is no event", List.of(), log.take());
        cache.put(8L, "u");
        log.take();
        cache.iterator().next();
        equal("an iterator's next is no event", List.of(), log.take());
    }

    @Test
    static void eventsOfProcessors() {
        Log log = new Log();
        Cache<Long, String> cache = listened(log);
        cache.invoke(1L, (entry, arguments) -> {
            entry.setValue("a");
            entry.setValue("b");
            return null;
        });
        equal("a processor is one event, of its last change", List.of("CREATED 1=b<-"), log.take());
        cache.invoke(1L, (entry, arguments) -> {
            entry.setValue("c");
            return null;
        });
        equal("an update of an entry that was there", List.of("UPDATED 1=c<b"), log.take());
        cache.invoke(1L, (entry, arguments) -> entry.getValue());
        equal("one that only looks is none", List.of(), log.take());
        cache.invoke(1L, (entry, arguments) -> {
            entry.remove();
            return null;
        });
        equal("a remove", List.of("REMOVED 1=c<c"), log.take());
        cache.invoke(1L, (entry, arguments) -> {
            entry.setValue("x");
            entry.remove();
            return null;
        });
        equal("what is created and removed again is none", List.of(), log.take());
    }

    @Test
    static void eventsOfLoads() throws Exception {
        Log log = new Log();
        Store<Long, String> store = new Store<>();
        store.map.put(50L, "fifty");
        Cache<Long, String> cache = Caches.through(store);
        cache.registerCacheEntryListener(synchronous(log));
        cache.get(50L);
        equal("a get that loads creates", List.of("CREATED 50=fifty<-"), log.take());
        cache.get(51L);
        equal("one that finds nothing is no event", List.of(), log.take());
        CompletionListenerFuture loaded = new CompletionListenerFuture();
        cache.loadAll(Set.of(50L), true, loaded);
        loaded.get(30, TimeUnit.SECONDS);
        equal("a loadAll with replace updates", List.of("UPDATED 50=fifty<fifty"), log.take());
    }

    @Test
    static void eventsOfFailedCallsAreNone() {
        Log log = new Log();
        Store<Long, String> store = new Store<>();
        Cache<Long, String> cache = Caches.through(store);
        cache.put(1L, "a");
        cache.registerCacheEntryListener(synchronous(log));
        store.fault = new IllegalStateException("down");
        thrown("a put fails", RuntimeException.class, () -> cache.put(1L, "b"));
        thrown("and a get of another key", RuntimeException.class, () -> cache.get(2L));
        equal("a call that fails is no event", List.of(), log.take());
    }

    @Test
    static void eventsOfExpiry() throws InterruptedException {
        Log log = new Log();
        Cache<Long, String> cache = Caches.create(new MutableConfiguration<Long, String>()
                .setExpiryPolicyFactory(CreatedExpiryPolicy.factoryOf(new Duration(TimeUnit.MILLISECONDS, 80)))
                .addCacheEntryListenerConfiguration(synchronous(log)));
        cache.put(2L, "c");
        Thread.sleep(200);
        equal("an expired entry isn't found", null, cache.get(2L));
        equal("and the call that meets it tells that it has expired", List.of("CREATED 2=c<-", "EXPIRED 2=c<c"),
                log.take());
    }

    @Test
    static void listenersComeAndGo() {
        Log log = new Log();
        Cache<Long, String> cache = Caches.plain(Long.class, String.class);
        CacheEntryListenerConfiguration<Long, String> configuration = synchronous(log);
        cache.registerCacheEntryListener(configuration);
        thrown("a listener that is registered twice is IllegalArgumentException", IllegalArgumentException.class,
                () -> cache.registerCacheEntryListener(configuration));
        cache.deregisterCacheEntryListener(configuration);
        cache.put(9L, "a");
        equal("a listener that is deregistered is told nothing", List.of(), log.take());
        cache.registerCacheEntryListener(configuration);
        cache.put(9L, "b");
        equal("and may be registered again", List.of("UPDATED 9=b<a"), log.take());
        cache.close();
        holds("a closed cache closes its listeners", log.closed);
    }

    @Test
    static void filtersChooseEvents() {
        Log log = new Log();
        Cache<Long, String> cache = Caches.plain(Long.class, String.class);
        CacheEntryEventFilter<Long, String> second = event -> event.getKey() == 2L;
        cache.registerCacheEntryListener(new MutableCacheEntryListenerConfiguration<>(() -> log, () -> second, false,
                true));
        cache.put(1L, "q");
        cache.put(2L, "r");
        equal("a filter chooses what a listener is told", List.of("CREATED 2=r<-"), log.take());
    }

    @Test
    static void aListenerThatThrowsFailsTheCallAlone() {
        IllegalArgumentException fault = new IllegalArgumentException("broken");
        Factory<CacheEntryListener<Long, String>> broken = () -> (CacheEntryCreatedListener<Long, String>) events -> {
            throw fault;
        };
        Cache<Long, String> cache = Caches.create(new MutableConfiguration<Long, String>()
                .addCacheEntryListenerConfiguration(new MutableCacheEntryListenerConfiguration<>(broken, null, false,
                        true)));
        CacheEntryListenerException failed = thrown("a synchronous listener that throws is CacheEntryListenerException",
                CacheEntryListenerException.class, () -> cache.put(1L, "a"));
        same("with its cause", fault, failed.getCause());
        equal("but what the call has done is done", "a", cache.get(1L));
    }

    @Test
    static void asynchronousListenersAreToldLater() throws Exception {
        CountDownLatch told = new CountDownLatch(1);
        CountDownLatch go = new CountDownLatch(1);
        CacheEntryCreatedListener<Long, String> slow = events -> {
            Background.await(go);
            told.countDown();
        };
        Cache<Long, String> cache = Caches.create(new MutableConfiguration<Long, String>()
                .addCacheEntryListenerConfiguration(new MutableCacheEntryListenerConfiguration<>(() -> slow, null,
                        false, false)));
        Background.start(() -> cache.put(1L, "a")).result();
        equal("a call doesn't wait for a listener that isn't synchronous", 1L, told.getCount());
        go.countDown();
        Background.await(told);
        equal("which is told all the same", 0L, told.getCount());
    }

    @Test
    static void aListenerMayCallTheCache() throws Exception {
        Cache<Long, String> cache = Caches.plain(Long.class, String.class);
        List<String> seen = Collections.synchronizedList(new ArrayList<>());
        CacheEntryCreatedListener<Long, String> curious = events ->
                events.forEach(event -> seen.add(cache.get(event.getKey())));
        cache.registerCacheEntryListener(synchronous(curious));
        Background.start(() -> cache.put(1L, "a")).result();
        equal("a listener may call the cache: no lock is held", List.of("a"), seen);
    }

    @Test
    static void eventsOfOneKeyComeInTheirOrder() throws Exception {
        Log log = new Log();
        Cache<Long, String> cache = listened(log);
        List<Work<Void>> all = new ArrayList<>();
        for (int thread = 0; thread < 4; thread++) {
            String name = "t" + thread + ".";
            all.add(Background.start(() -> {
                for (int i = 0; i < 500; i++) {
                    cache.put(1L, name + i);
                }
            }));
        }
        Background.results(all);
        List<String> lines = log.take();
        equal("each put of four threads is told", 2000, lines.size());
        int follows = 0;
        for (int i = 1; i < lines.size(); i++) {
            String before = lines.get(i - 1).replaceAll(".*=(.*)<.*", "$1");
            follows += lines.get(i).endsWith("<" + before) ? 1 : 0;
        }
        equal("in the order in which they were done: each has the value before as its old one", 1999, follows);
    }

    @Test
    static void aListenerWhoseFactoryFailsMayBeRegisteredAgain() {
        Log log = new Log();
        AtomicBoolean fails = new AtomicBoolean(true);
        Factory<CacheEntryListener<Long, String>> factory = () -> {
            if (fails.get()) {
                throw new IllegalStateException("not now");
            }
            return log;
        };
        CacheEntryListenerConfiguration<Long, String> configuration =
                new MutableCacheEntryListenerConfiguration<>(factory, null, true, true);
        Cache<Long, String> cache = Caches.plain(Long.class, String.class);
        thrown("what a listener's factory throws is passed on", IllegalStateException.class,
                () -> cache.registerCacheEntryListener(configuration));
        fails.set(false);
        cache.registerCacheEntryListener(configuration);
        cache.put(1L, "a");
        equal("and the listener may be registered then", List.of("CREATED 1=a<-"), log.take());
    }

    @Test
    static void aClosedCacheTellsNobody() throws Exception {
        Log log = new Log();
        Cache<Long, String> cache = listened(log);
        Store.Gate told = new Store.Gate();
        List<Thread> tellers = Collections.synchronizedList(new ArrayList<>());
        CacheEntryCreatedListener<Long, String> slow = events -> {
            tellers.add(Thread.currentThread());
            told.pass();
        };
        cache.registerCacheEntryListener(new MutableCacheEntryListenerConfiguration<>(() -> slow, null, false, false));
        cache.put(1L, "a");
        cache.put(2L, "b");
        told.awaitCall();
        Store.Gate invoked = new Store.Gate();
        Work<String> late = Background.start(() -> cache.invoke(3L, (entry, arguments) -> {
            invoked.pass();
            entry.setValue("c");
            return "done";
        }));
        invoked.awaitCall();
        log.take();
        cache.close();
        invoked.open();
        late.result();
        equal("a call that ends after a close tells no listener", List.of(), log.take());
        told.open();
        Background.start(() -> tellers.get(0).join()).result();
        equal("nor is one that isn't synchronous told what it has not been told before", 1, tellers.size());
    }

    @Test
    static void whatAListenerThrowsIsForTheCallerOfTheEvent() throws Exception {
        CacheManager manager = Caches.manager(1, 100);
        Store.Gate gate = new Store.Gate();
        CacheEntryCreatedListener<Long, String> strict = events -> events.forEach(event -> {
            if (event.getKey() == 2L) {
                throw new IllegalArgumentException("two");
            }
            gate.pass();
        });
        Cache<Long, String> cache = Caches.create(manager, new MutableConfiguration<>());
        cache.registerCacheEntryListener(synchronous(strict));
        Work<Void> first = Background.start(() -> cache.put(1L, "a"));
        gate.awaitCall();
        Work<Void> second = Background.start(() -> cache.put(2L, "b"));
        second.awaitSleep();
        gate.open();
        equal("a call that tells another one's event has no exception of that", null, first.result());
        thrown("but the other one", CacheEntryListenerException.class, second::result);
        manager.close();
    }

    @Test
    static void aCallThatHasReservedAKeyWaitsForNoListener() throws Exception {
        CacheManager manager = Caches.manager(1, 100);
        Cache<Long, String> cache = Caches.create(manager, new MutableConfiguration<>());
        List<Long> told = Collections.synchronizedList(new ArrayList<>());
        CacheEntryCreatedListener<Long, String> calling = events -> events.forEach(event -> {
            told.add(event.getKey());
            if (event.getKey() == 1L) {
                cache.putIfAbsent(2L, "b");
            } else if (event.getKey() == 3L) {
                throw new IllegalArgumentException("three");
            }
        });
        cache.registerCacheEntryListener(synchronous(calling));
        Store.Gate gate = new Store.Gate();
        Work<String> invoking = Background.start(() -> cache.invoke(2L, (entry, arguments) -> {
            gate.pass();
            cache.put(3L, "c");
            entry.setValue("b");
            return "done";
        }));
        gate.awaitCall();
        Work<Void> telling = Background.start(() -> cache.put(1L, "a"));
        telling.awaitSleep();
        gate.open();
        equal("a processor's call ends while a listener waits for the processor's key", "done", invoking.result());
        equal("what a listener throws of it then fails nobody", null, telling.result());
        equal("and each event is told, in the order of the steps", List.of(1L, 3L, 2L), told);
        manager.close();
    }
}
