package cadwrelch.recording;

import java.util.ArrayList;
import java.util.HashMap;
import java.util.List;
import java.util.Map;
import java.util.Queue;
import java.util.Set;
import java.util.concurrent.ConcurrentHashMap;
import java.util.concurrent.ConcurrentLinkedQueue;
import java.util.function.LongSupplier;
import java.util.stream.Collectors;

/**
 * Whose a load is. A load on the thread of a call at its key is that call's. A {@code loadAll} loads on a thread of the
 * provider, where no call is known: such a load is that of the one {@code loadAll} under way that names the key, if it
 * is the only one there. If several may have made it, or one of them may have made several, it is nobody's, and these
 * calls of {@code loadAll} say nothing of their replies: the record then claims less, and nothing that is wrong. A load
 * that is nobody's is written as that of a {@code loadAll} of its own, which doesn't end: it may have been cached.
 */
final class LoadOwners {
    /** The loader was asked. */
    static final class Load {
        private final Set<String> keys;
        private long time;
        private volatile long answered;
        private final boolean isKnown;
        /** The call that it is a part of; null if it is nobody's. */
        private RecordedCall owner;
        /** The number that it has without an owner; 0 if it has none yet. */
        private long own;

        Load(Set<String> keys, RecordedCall call) {
            this.keys = keys;
            isKnown = call != null && call.names(keys);
            owner = isKnown ? call : null;
        }

        /** Notes when it was answered. */
        void answer(long at) {
            answered = at;
        }

        /** The lines that ask for it. */
        String asked(LongSupplier numbers) {
            String words = String.join(" ", keys);
            String call = owner == null ? "call " + number(numbers) + " loadall replace " + words + "\n" : "";
            return call + "load " + number(numbers) + " " + words;
        }

        /** The number of its owner, or, if it has none, a number of its own. */
        long number(LongSupplier numbers) {
            if (owner == null && own == 0) {
                own = numbers.getAsLong();
            }
            return owner == null ? own : owner.number;
        }
    }

    /** A loadAll, from when to when. */
    private static final class Span {
        final RecordedCall call;
        final long began;
        volatile long ended = Long.MAX_VALUE;

        Span(RecordedCall call, long began) {
            this.call = call;
            this.began = began;
        }

        boolean has(Load load) {
            return began <= load.time && load.time <= ended && call.names(load.keys);
        }
    }

    /** Numbers that no call has. */
    final LongSupplier numbers;
    private final Queue<Load> loads = new ConcurrentLinkedQueue<>();
    private final Map<RecordedCall, Span> spans = new ConcurrentHashMap<>();

    LoadOwners(LongSupplier numbers) {
        this.numbers = numbers;
    }

    /** Adds a load that was noted at a time. */
    void add(Load load, long time) {
        load.time = time;
        loads.add(load);
    }

    /** A loadAll has begun. */
    void begin(RecordedCall call, long time) {
        spans.put(call, new Span(call, time));
    }

    /** A call has ended, which may be a loadAll. */
    void end(RecordedCall call, long time) {
        Span span = spans.get(call);
        if (span != null) {
            span.ended = time;
        }
    }

    /** Says of each load up to a time on a thread without a call whose it is. */
    void resolve(long end) {
        List<Load> all = loads.stream().filter(load -> load.time <= end).collect(Collectors.toList());
        Map<RecordedCall, List<Load>> made = new HashMap<>();
        for (Load load : all) {
            if (!load.isKnown) {
                claim(load, made);
            } else if (load.owner != null && load.owner.ended() < load.answered) {
                // The call has ended without it: what it found may be cached later.
                load.owner = null;
            }
        }
        for (Map.Entry<RecordedCall, List<Load>> entry : made.entrySet()) {
            if (hasLoadedTwice(entry.getKey(), all)) {
                disown(entry.getKey(), entry.getValue());
            }
        }
    }

    /** Gives a load to the loadAll that alone may have made it. */
    private void claim(Load load, Map<RecordedCall, List<Load>> made) {
        List<RecordedCall> callers = spans.values().stream().filter(span -> span.has(load)).map(span -> span.call)
                .collect(Collectors.toList());
        boolean isClear = callers.size() == 1 && callers.get(0).namesAll(load.keys);
        load.owner = isClear ? callers.get(0) : null;
        if (isClear) {
            made.computeIfAbsent(load.owner, any -> new ArrayList<>()).add(load);
        } else {
            callers.forEach(RecordedCall::makeUnclear);
        }
    }

    private static boolean hasLoadedTwice(RecordedCall call, List<Load> all) {
        List<String> keys = all.stream().filter(load -> load.owner == call).flatMap(load -> load.keys.stream())
                .collect(Collectors.toList());
        return keys.size() != Set.copyOf(keys).size();
    }

    private static void disown(RecordedCall call, List<Load> loads) {
        call.makeUnclear();
        loads.forEach(load -> load.owner = null);
    }
}
