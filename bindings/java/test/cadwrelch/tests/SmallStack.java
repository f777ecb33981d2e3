package cadwrelch.tests;

import static cadwrelch.tests.Check.equal;

import java.util.Map;
import java.util.Set;
import java.util.concurrent.TimeUnit;
import javax.cache.Cache;
import javax.cache.CacheManager;
import javax.cache.integration.CompletionListenerFuture;
import cadwrelch.tests.Check.Test;

/** Caches that are made, called and closed on small stacks, as virtual machines with -Xss have them. */
final class SmallStack {
    private SmallStack() {}

    @Test
    static void aCacheIsMadeAndCalledOnASmallStack() throws Exception {
        // Less than this the virtual machine doesn't start a thread with.
        equal("each call works on a stack of 192 kB", "done", Background.start(192 << 10, SmallStack::live).result());
    }

    private static String live() throws Exception {
        CacheManager manager = Caches.manager(64, 4096);
        Store<Integer, String> store = new Store<>();
        store.map.put(1, "one");
        Cache<Integer, String> cache = Caches.create(manager, Caches.over(store));
        cache.get(1);
        cache.put(2, "two");
        cache.invoke(2, (entry, arguments) -> {
            entry.setValue(entry.getValue() + "!");
            return null;
        });
        equal("what is cached is right", Map.of(1, "one", 2, "two!"), cache.getAll(Set.of(1, 2)));
        CompletionListenerFuture loaded = new CompletionListenerFuture();
        cache.loadAll(Set.of(1), true, loaded);
        loaded.get(30, TimeUnit.SECONDS);
        cache.removeAll();
        manager.close();
        return "done";
    }
}
