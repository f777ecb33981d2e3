package books;

import java.util.ArrayList;
import java.util.Arrays;
import java.util.List;
import java.util.concurrent.atomic.AtomicInteger;
import javax.cache.annotation.CacheKey;
import javax.cache.annotation.CacheRemove;
import javax.cache.annotation.CacheResult;
import javax.cache.annotation.CacheValue;
import org.springframework.cache.annotation.CacheEvict;
import org.springframework.cache.annotation.CachePut;
import org.springframework.cache.annotation.Cacheable;

/**
 * The service, with annotations of Spring and of JSR 107. It counts how often it is asked itself, and not its caches.
 */
public final class Shelf implements Books {
    final AtomicInteger asked = new AtomicInteger();

    @Override
    @Cacheable("titles")
    public String title(int id) {
        asked.incrementAndGet();
        return id < 0 ? null : "title " + id;
    }

    @Override
    @CachePut(cacheNames = "titles", key = "#p0")
    public String rename(int id, String title) {
        return title;
    }

    @Override
    @CacheEvict(cacheNames = "titles", key = "#p0")
    public void forget(int id) {}

    @Override
    @Cacheable(cacheNames = "summaries", sync = true)
    public String summary(int id) {
        asked.incrementAndGet();
        try {
            Thread.sleep(200);
        } catch (InterruptedException e) {
            Thread.currentThread().interrupt();
        }
        return "summary " + id;
    }

    @Override
    @Cacheable("lists")
    public List<String> titlesOf(String one, String other) {
        asked.incrementAndGet();
        return new ArrayList<>(Arrays.asList(one + "'s", other + "'s"));
    }

    @Override
    @CacheResult(cacheName = "authors")
    public String author(@CacheKey String book, @CacheKey int page) {
        asked.incrementAndGet();
        return "author of " + book + ", " + page;
    }

    @Override
    @CacheRemove(cacheName = "authors")
    public void authorChanged(@CacheKey String book, @CacheKey int page) {}

    @Override
    @javax.cache.annotation.CachePut(cacheName = "notes")
    public void note(@CacheKey String book, @CacheValue String note) {}

    @Override
    @CacheResult(cacheName = "notes")
    public String noteOf(@CacheKey String book) {
        asked.incrementAndGet();
        return "none";
    }
}
