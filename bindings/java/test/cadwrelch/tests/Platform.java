package cadwrelch.tests;

import static cadwrelch.tests.Check.holds;
import static cadwrelch.tests.Check.thrown;

import javax.cache.CacheException;
import javax.cache.configuration.MutableConfiguration;
import cadwrelch.tests.Check.Test;

/**
 * A virtual machine where the native library can't be loaded. The property {@code platform.expected} is a text that its
 * exception has.
 */
final class Platform {
    private Platform() {}

    @Test
    static void whatIsMissingIsNamed() {
        String expected = System.getProperty("platform.expected");
        Class<? extends RuntimeException> type =
                System.getProperty("cadwrelch.library") == null ? UnsupportedOperationException.class
                        : CacheException.class;
        RuntimeException refused = thrown("a cache without a native library is " + type.getSimpleName(), type,
                () -> Caches.create(new MutableConfiguration<>()));
        holds("whose text has " + expected + ": " + refused, String.valueOf(refused).contains(expected));
        thrown("and so is the next one", type, () -> Caches.create(new MutableConfiguration<>()));
    }
}
