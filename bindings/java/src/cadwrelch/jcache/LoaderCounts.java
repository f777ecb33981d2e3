package cadwrelch.jcache;

import java.util.concurrent.Callable;
import java.util.concurrent.atomic.LongAdder;

/** How often the loader of a cache was asked, and how long it took. Any thread counts. */
final class LoaderCounts {
    final LongAdder calls = new LongAdder();
    final LongAdder failures = new LongAdder();
    final LongAdder nanos = new LongAdder();

    /** Asks the loader, and counts that. */
    <T> T count(Callable<T> question) throws Exception {
        long began = System.nanoTime();
        boolean hasFailed = true;
        try {
            T answer = question.call();
            hasFailed = false;
            return answer;
        } finally {
            calls.increment();
            nanos.add(System.nanoTime() - began);
            if (hasFailed) {
                failures.increment();
            }
        }
    }

    /** Begins anew. */
    void clear() {
        calls.reset();
        failures.reset();
        nanos.reset();
    }
}
