package cadwrelch.jcache;

import java.util.Set;
import java.util.function.LongSupplier;
import javax.cache.expiry.AccessedExpiryPolicy;
import javax.cache.expiry.CreatedExpiryPolicy;
import javax.cache.expiry.Duration;
import javax.cache.expiry.ExpiryPolicy;
import javax.cache.expiry.ModifiedExpiryPolicy;
import javax.cache.expiry.TouchedExpiryPolicy;

/**
 * When the entries of a cache expire or are to be loaded again, by its clock. The expiry policy (JSR 107, "Expiry
 * Policies") is the user's, and asked with no lock held. What else is here is called with the lock of the entry's
 * stripe held.
 */
final class Expiry {
    /** Which question a step leads to. */
    enum Due { NOTHING, CREATION, UPDATE, ACCESS }

    /** Policies of the standard: what they say of an access never changes. */
    private static final Set<Class<?>> CONSTANT = Set.of(AccessedExpiryPolicy.class, CreatedExpiryPolicy.class,
            ModifiedExpiryPolicy.class, TouchedExpiryPolicy.class);

    /** Null: no entry expires, but for what is known to be absent. */
    private final ExpiryPolicy policy;
    /** Null: {@link System#nanoTime}. */
    private final LongSupplier clock;
    private final long refreshAfter;
    private final long absentFor;
    /** Whether the policy has to be asked at each access, and, if not, for how long an access lets live on; 0: as before. */
    private final boolean isAskedOfAccess;
    private final long accessNanos;

    /** Of a policy, or null, and the settings of a cache. */
    Expiry(ExpiryPolicy policy, Settings settings, LongSupplier clock) {
        this.policy = policy;
        this.clock = clock;
        refreshAfter = settings.refreshAfter;
        absentFor = settings.absentFor;
        boolean isConstant = policy == null || CONSTANT.contains(policy.getClass());
        Duration access = policy == null || !isConstant ? null : policy.getExpiryForAccess();
        isAskedOfAccess = !isConstant || access != null && (access.isEternal() || access.isZero());
        accessNanos = isAskedOfAccess || access == null ? 0 : nanos(access);
    }

    private static long nanos(Duration duration) {
        return duration.getTimeUnit().toNanos(duration.getDurationAmount());
    }

    private long now() {
        return clock == null ? System.nanoTime() : clock.getAsLong();
    }

    /** What is to be asked after a call's step. */
    Due due(Call call) {
        if (policy == null || call.after == null || call.hasFailed()) {
            return Due.NOTHING;
        }
        if (call.before == null) {
            return Due.CREATION;
        }
        if (call.hasChanged) {
            return Due.UPDATE;
        }
        switch (call.op) {
            case Native.CONTAINS_KEY:
            case Native.PUT_IF_ABSENT:
            case Native.LOAD:
            case Native.RELOAD:
                return Due.NOTHING;
            case Native.INVOKE:
                return call.hasRead ? Due.ACCESS : Due.NOTHING;
            default:
                return Due.ACCESS;
        }
    }

    /** What the policy says. Null: as before; also if it throws, unless the entry is new: then it is eternal. */
    Duration ask(Due due) {
        try {
            switch (due) {
                case CREATION:
                    Duration duration = policy.getExpiryForCreation();
                    return duration == null ? Duration.ETERNAL : duration;
                case UPDATE:
                    return policy.getExpiryForUpdate();
                default:
                    return policy.getExpiryForAccess();
            }
        } catch (RuntimeException e) {
            return due == Due.CREATION ? Duration.ETERNAL : null;
        }
    }

    /** Sets the time at which an entry expires; null: it is as before. */
    void set(Node node, Duration duration) {
        node.isBeingRenewed = false;
        if (duration == null) {
            return;
        }
        node.expires = !duration.isEternal();
        if (node.expires) {
            node.deadline = now() + nanos(duration);
        }
    }

    boolean hasExpired(Node node) {
        return node.expires && node.isCached() && hasExpired(node, now());
    }

    private static boolean hasExpired(Node node, long now) {
        return node.expires && !node.isBeingRenewed && now - node.deadline >= 0;
    }

    /**
     * Notes a step that a call has made: how old the entry is, and for how long it is absent. True: it is to be loaded
     * again.
     */
    boolean stepped(Call call) {
        Node node = call.node;
        if (node.isAbsent()) {
            if (!node.expires) {
                node.expires = true;
                node.deadline = now() + absentFor;
            }
        } else if (refreshAfter != 0) {
            long now = now();
            boolean isStale = !call.hasChanged && call.op == Native.GET && node.isCached() && isStale(node, now);
            if (call.hasChanged || isStale) {
                ((Node.Aging) node).staleAt = now + refreshAfter;
            }
            return isStale;
        }
        return false;
    }

    private static boolean isStale(Node node, long now) {
        return now - ((Node.Aging) node).staleAt >= 0;
    }

    /**
     * Notes a get that has found an entry, unless that has expired: what is found then has to be cleared first.
     *
     * @return what is left to do, or EXPIRED, and nothing was noted
     */
    Access access(Node node) {
        if (!node.expires && refreshAfter == 0) {
            return isAskedOfAccess ? Access.ASK : Access.DONE;
        }
        long now = now();
        if (hasExpired(node, now)) {
            return Access.EXPIRED;
        }
        if (node.isAbsent()) {
            return Access.DONE;
        }
        if (accessNanos != 0) {
            node.deadline = now + accessNanos;
            node.expires = true;
        }
        if (refreshAfter != 0 && isStale(node, now)) {
            // If this reload comes to nothing, the next one is begun then.
            ((Node.Aging) node).staleAt = now + refreshAfter;
            return isAskedOfAccess ? Access.REFRESH_AND_ASK : Access.REFRESH;
        }
        return isAskedOfAccess ? Access.ASK : Access.DONE;
    }

    /** What a get that has found its entry leads to. */
    enum Access {
        EXPIRED, DONE, ASK, REFRESH, REFRESH_AND_ASK;

        boolean asks() {
            return this == ASK || this == REFRESH_AND_ASK;
        }

        boolean refreshes() {
            return this == REFRESH || this == REFRESH_AND_ASK;
        }
    }

    void close() {
        Closing.quietly(policy);
    }
}
