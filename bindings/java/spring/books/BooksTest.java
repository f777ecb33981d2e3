package books;

import static cadwrelch.tests.Check.equal;
import static cadwrelch.tests.Check.holds;

import java.util.ArrayList;
import java.util.Arrays;
import java.util.HashSet;
import java.util.List;
import java.util.concurrent.ExecutorService;
import java.util.concurrent.Executors;
import java.util.concurrent.Future;
import java.util.concurrent.TimeUnit;
import javax.cache.CacheManager;
import cadwrelch.tests.Check.Test;
import org.springframework.aop.framework.Advised;
import org.springframework.cache.Cache;
import org.springframework.cache.jcache.JCacheCacheManager;
import org.springframework.context.support.ClassPathXmlApplicationContext;

/** The service in a Spring context, its caches by JCacheCacheManager. */
final class BooksTest {
    private BooksTest() {}

    /** A context of its own, the service in it, and the object behind its caches. */
    private static final class Scene implements AutoCloseable {
        final ClassPathXmlApplicationContext context = new ClassPathXmlApplicationContext("beans.xml");
        final Books books = context.getBean(Books.class);
        final Shelf shelf = behind(books);

        private static Shelf behind(Books books) {
            try {
                return (Shelf) ((Advised) books).getTargetSource().getTarget();
            } catch (Exception e) {
                throw new AssertionError(e);
            }
        }

        Cache cache(String name) {
            return context.getBean(JCacheCacheManager.class).getCache(name);
        }

        /** How often the service itself was asked since the last time. */
        int asked() {
            return shelf.asked.getAndSet(0);
        }

        @Override
        public void close() {
            context.close();
        }
    }

    @Test
    static void springFindsTheProvider() {
        try (Scene scene = new Scene()) {
            String manager = scene.context.getBean(CacheManager.class).getClass().getName();
            holds("Spring's caches are of this provider: " + manager, manager.startsWith("cadwrelch."));
            equal("all of them", new HashSet<>(Arrays.asList("titles", "summaries", "lists", "authors", "notes")),
                    new HashSet<>(scene.context.getBean(JCacheCacheManager.class).getCacheNames()));
        }
    }

    @Test
    static void annotationsOfSpring() {
        try (Scene scene = new Scene()) {
            equal("@Cacheable asks once", "title 1", scene.books.title(1));
            equal("and answers from the cache then", "title 1", scene.books.title(1));
            equal("so the service was asked once", 1, scene.asked());
            scene.books.rename(1, "other");
            equal("@CachePut caches what its method answers", "other", scene.books.title(1));
            equal("and asks for nothing else", 0, scene.asked());
            scene.books.forget(1);
            equal("@CacheEvict removes", "title 1", scene.books.title(1));
            equal("so the service is asked again", 1, scene.asked());
            equal("a null is cached, too", null, scene.books.title(-1));
            scene.books.title(-1);
            equal("so it is asked for once", 1, scene.asked());
        }
    }

    @Test
    static void oneComputationForManyThreads() throws Exception {
        ExecutorService pool = Executors.newFixedThreadPool(8);
        try (Scene scene = new Scene()) {
            List<Future<String>> all = new ArrayList<>();
            for (int i = 0; i < 8; i++) {
                all.add(pool.submit(() -> scene.books.summary(500)));
            }
            for (Future<String> one : all) {
                equal("@Cacheable with sync = true answers each of eight threads", "summary 500",
                        one.get(30, TimeUnit.SECONDS));
            }
            equal("by one computation", 1, scene.asked());
        } finally {
            pool.shutdown();
        }
    }

    @Test
    static void annotationsOfTheStandard() {
        try (Scene scene = new Scene()) {
            scene.books.author("a", 1);
            equal("@CacheResult with two keys", "author of a, 1", scene.books.author("a", 1));
            equal("and with another one", "author of a, 2", scene.books.author("a", 2));
            equal("asks once for each", 2, scene.asked());
            scene.books.authorChanged("a", 1);
            scene.books.author("a", 1);
            scene.books.author("a", 2);
            equal("@CacheRemove removes its own", 1, scene.asked());
            scene.books.note("b", "good");
            equal("@CachePut caches its @CacheValue", "good", scene.books.noteOf("b"));
            equal("so the service isn't asked", 0, scene.asked());
        }
    }

    @Test
    static void whatACallerChangesIsHis() {
        try (Scene scene = new Scene()) {
            scene.books.titlesOf("x", "y").add("mine");
            equal("caches store by value: what a caller does to his list changes no other's",
                    Arrays.asList("x's", "y's"),
                    scene.books.titlesOf("x", "y"));
            equal("which was computed once", 1, scene.asked());
        }
    }

    @Test
    static void cachesOfSpring() {
        try (Scene scene = new Scene()) {
            scene.books.title(1);
            equal("putIfAbsent answers what is there", "title 1", scene.cache("titles").putIfAbsent(1, "z").get());
            scene.cache("titles").clear();
            scene.books.title(1);
            equal("clear empties a cache", 2, scene.asked());
            equal("get with a computation computes what is missing", "new", scene.cache("titles").get(2, () -> "new"));
            equal("and caches it", "new", scene.books.title(2));
        }
    }

    @Test
    static void theContextClosesItsCaches() {
        Scene scene = new Scene();
        CacheManager manager = scene.context.getBean(CacheManager.class);
        scene.close();
        holds("a context that is closed closes its manager", manager.isClosed());
    }
}
