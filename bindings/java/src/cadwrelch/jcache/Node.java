package cadwrelch.jcache;

/**
 * A key in a stripe: what the core knows by a number, with what is cached at it; or, if the core has the bytes of keys
 * and values, a key that calls have reserved or joined. A node is there as long as its key is cached so, reserved or
 * joined. The lock of its stripe guards all that changes.
 */
class Node {
    /** What is cached at a key of which it is known that the loader finds nothing. The core takes it for a value. */
    static final Object ABSENT = new Object();

    /** The key: a copy, if the cache keeps copies. */
    final Object key;
    /** The spread hash of the key. */
    final int hash;
    /** The number by which the core knows the key: never given twice by a stripe. */
    final long id;
    /** The next node of its bucket. */
    Node next;

    /** What is cached; null if nothing is. */
    Object stored;
    /** The number by which the core knows what is cached: never given twice by a stripe; 0 if nothing is cached. */
    long version;
    /** When the entry expires, by the cache's clock, if {@link #expires}. */
    long deadline;
    /** The call that has reserved the key, or null. */
    Call owner;
    /** How many calls have reserved the key or have joined its load. */
    short pins;
    /** Whether the entry expires. */
    boolean expires;
    /** Whether the expiry policy is being asked for an update: the deadline is that of what was cached before. */
    boolean isBeingRenewed;
    /** Whether what is known of its key is out of date, as {@link Hiding} says. */
    boolean isHidden;

    /** A node of a key of which nothing is cached. */
    Node(Object key, int hash, long id) {
        this.key = key;
        this.hash = hash;
        this.id = id;
    }

    /** A node of a cache that loads entries again when they are old. */
    static final class Aging extends Node {
        /** When that is, by the cache's clock. */
        long staleAt;

        Aging(Object key, int hash, long id) {
            super(key, hash, id);
        }
    }

    /** Caches a value, or nothing: null with version 0. */
    void set(Object newStored, long newVersion) {
        stored = newStored;
        version = newVersion;
        expires &= newVersion != 0;
        isBeingRenewed &= newVersion != 0;
    }

    boolean isCached() {
        return version != 0;
    }

    /** Whether something is cached that a hit may find. */
    boolean isShown() {
        return version != 0 && !isHidden;
    }

    boolean isAbsent() {
        return stored == ABSENT;
    }

    /** Whether nobody needs the node. */
    boolean isUnused() {
        return version == 0 && pins == 0 && !isHidden;
    }
}
