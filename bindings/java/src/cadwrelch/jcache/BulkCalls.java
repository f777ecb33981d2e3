package cadwrelch.jcache;

import java.util.ArrayList;
import java.util.Collection;
import java.util.HashSet;
import java.util.LinkedHashSet;
import java.util.List;
import java.util.Set;
import java.util.function.Consumer;
import java.util.function.Function;
import java.util.stream.Collectors;

/**
 * A call of many keys, in rounds. A round makes the first phase of each key that has no reply. Then whoever is to be
 * asked is asked, once for all keys that the round has reserved, and these are committed; then it waits for the loads
 * that it has joined. A key that can't begin is put off to the next round: none is waited for. If a round could begin
 * none, the first one that it has put off is waited for before the next round, with nothing out: so no two calls wait
 * for each other.
 */
final class BulkCalls {
    private final CacheContext<?, ?> context;
    /** Asks for the keys that a round has reserved, and notes the answers in their calls. */
    private final Consumer<List<Call>> asker;
    private final List<Call> calls;
    private final List<Call> done;
    private final Set<Stripe> touched = new HashSet<>();

    /** A call of many keys, made of these calls of different keys. */
    BulkCalls(CacheContext<?, ?> context, List<Call> calls, Consumer<List<Call>> asker) {
        this.context = context;
        this.calls = calls;
        this.asker = asker;
        done = new ArrayList<>(calls.size());
    }

    /**
     * What a round has out, and what it puts off. Once a key is reserved nothing is allocated that could fail and leave
     * it so: lists have room for all, and loops go by index.
     */
    private static final class Round {
        final List<Call> asked;
        final List<Call> joined;
        final List<Call> later;
        /** Stripes that have refused a key because they have no room: no other key of theirs is tried. */
        final Set<Stripe> full = new HashSet<>();

        Round(int size) {
            asked = new ArrayList<>(size);
            joined = new ArrayList<>(size);
            later = new ArrayList<>(size);
        }

        boolean hasNothingOut() {
            return asked.isEmpty() && joined.isEmpty();
        }

        /** Waits for the first key that is put off, if nothing is out. */
        void awaitTurn() {
            if (hasNothingOut() && !later.isEmpty()) {
                later.get(0).stripe.awaitTurn(later.get(0));
            }
        }

        /** Gives up what is out: nobody was asked yet. */
        void giveUp() {
            for (int i = 0; i < asked.size(); i++) {
                asked.get(i).stripe.withdraw(asked.get(i));
            }
            abandonJoined(0);
        }

        /** Gives up what was joined, from an index on. */
        void abandonJoined(int from) {
            for (int i = from; i < joined.size(); i++) {
                joined.get(i).stripe.abandon(joined.get(i));
            }
        }
    }

    /**
     * Makes the calls, and tells the listeners.
     *
     * @throws IllegalStateException if the cache is closed, or a call would wait for its own thread. Calls that have
     *     not ended have done nothing then
     */
    void run() {
        try {
            List<Call> left = calls;
            while (!left.isEmpty()) {
                left = round(left);
            }
        } catch (RuntimeException | Error e) {
            try {
                context.tellListeners(touched);
            } catch (RuntimeException fault) {
                e.addSuppressed(fault);
            }
            throw e;
        }
        context.tellListeners(touched);
    }

    /** One round. Returns the calls that are put off. */
    private List<Call> round(List<Call> left) {
        Round round = new Round(left.size());
        try {
            for (int i = 0; i < left.size(); i++) {
                begin(left.get(i), round);
            }
        } catch (RuntimeException | Error e) {
            round.giveUp();
            throw e;
        }
        if (!round.asked.isEmpty()) {
            ask(round.asked);
            end(round);
        }
        pickUp(round);
        round.awaitTurn();
        return round.later;
    }

    private void begin(Call call, Round round) {
        Stripe stripe = context.stripeOf(call.lookup.hash);
        if (round.full.contains(stripe)) {
            round.later.add(call);
            return;
        }
        touched.add(stripe);
        stripe.begin(call, false);
        switch (call.next) {
            case Native.DONE:
                done.add(call);
                break;
            case Native.REFUSED:
                round.later.add(call);
                if (call.blocker == null) {
                    round.full.add(stripe);
                }
                break;
            case Native.JOINED:
                round.joined.add(call);
                break;
            default:
                round.asked.add(call);
        }
    }

    /** Whatever happens, each call has an answer then, and can be committed. */
    private void ask(List<Call> asked) {
        try {
            asker.accept(asked);
        } catch (RuntimeException | Error e) {
            for (int i = 0; i < asked.size(); i++) {
                asked.get(i).failIfUnanswered(e);
            }
        }
    }

    /** Commits what was asked for: all, even if memory to note what one has left is short. */
    private void end(Round round) {
        Error failure = null;
        for (int i = 0; i < round.asked.size(); i++) {
            Call call = round.asked.get(i);
            try {
                call.stripe.end(call);
            } catch (Error e) {
                failure = e;
            }
            done.add(call);
        }
        if (failure != null) {
            round.abandonJoined(0);
            throw failure;
        }
    }

    private void pickUp(Round round) {
        int picked = 0;
        try {
            while (picked < round.joined.size()) {
                Call call = round.joined.get(picked++);
                call.stripe.pickUp(call);
                (call.isDone() ? done : round.later).add(call);
            }
        } catch (RuntimeException | Error e) {
            round.abandonJoined(picked);
            throw e;
        }
    }

    // One operation at each key.

    /** The replies of one operation at many keys, in the caller's order, and the first failure. */
    static final class Result {
        final List<Call> calls;
        /** What the loader or the writer threw first, or null. */
        final Throwable cause;
        private final String cacheName;

        Result(List<Call> calls, Throwable cause, String cacheName) {
            this.calls = calls;
            this.cause = cause;
            this.cacheName = cacheName;
        }

        /** The end of a message: the keys that have failed. */
        String where() {
            return Texts.at(cacheName, calls.stream().filter(Call::hasFailed).collect(Collectors.toList()));
        }
    }

    /** Makes one operation at each of these keys, in their order, with a value or null for each. */
    static <K, V> Result run(CacheContext<K, V> context, int op, Collection<? extends K> keys, Function<K, V> valueOf) {
        List<Call> calls = new ArrayList<>(keys.size());
        for (K key : new LinkedHashSet<>(keys)) {
            V value = valueOf.apply(key);
            calls.add(new Call(op, context.copier.lookup(key), value, context.valueIn(key, value), null));
        }
        Throwable[] thrown = new Throwable[1];
        BulkCalls bulk = new BulkCalls(context, calls, asked -> {
            Throwable next = askOf(context.outside, asked);
            thrown[0] = thrown[0] == null ? next : thrown[0];
        });
        try {
            bulk.run();
        } catch (RuntimeException | Error e) {
            Throwable before = bulk.failure(thrown[0]);
            if (before != null && before != e) {
                e.addSuppressed(before);
            }
            throw e;
        }
        return new Result(calls, bulk.failure(thrown[0]), context.cache.getName());
    }

    /** The first failure: what the loader or the writer threw, if it isn't null, or of a call that is done; or null. */
    private Throwable failure(Throwable thrown) {
        Throwable first = thrown;
        for (Call call : done) {
            if (call.hasFailed() && first == null) {
                first = call.cause;
            }
        }
        return first;
    }

    /**
     * All of a round's keys are to be loaded, or all to be written, or all to be deleted. Returns what was thrown, or
     * null.
     */
    private static Throwable askOf(Outside<?, ?> outside, List<Call> asked) {
        switch (asked.get(0).next) {
            case Native.ASK_LOADER:
                return outside.loadAll(asked);
            case Native.WRITE:
                return outside.writeAll(asked);
            default:
                return outside.deleteAll(asked);
        }
    }
}
