package cadwrelch.jcache;

/**
 * Forgets what somebody else has changed in the store: {@code cache.unwrap(Invalidation.class)} of any cache of this
 * provider. Neither loader nor writer is asked, no listener is told, and nothing is counted. That is what differs from
 * {@code remove}, which deletes in the store, and from {@code clear}, which waits for each key that a call has reserved.
 *
 * <p>No method waits for a call. A key that is reserved, since it is being loaded, written or processed, is marked:
 * calls that begin later wait until that reservation ends, and are answered neither by its entry nor by its load; what
 * it leaves is dropped then, before anybody sees it. {@code containsKey} says no meanwhile, and doesn't wait. Calls that
 * had joined the load before are answered by it, and the call that has the reservation goes on. Inside of its loader,
 * writer or processor a call at its key that would wait is an IllegalStateException.
 *
 * <p>If the cache is closed nothing is done. An OutOfMemoryError says that memory is short: some of the entries may be
 * there still, and the call is to be made again.
 */
public interface Invalidation {
    /**
     * Forgets a key: what begins once this has returned is answered nothing that was read or written before.
     *
     * @param key of the cache's configured type
     * @throws NullPointerException if it is null
     * @throws ClassCastException if it is of another type
     */
    void invalidate(Object key);

    /** The same of all keys. */
    void invalidateAll();

    /**
     * Forgets all keys, and keeps nothing from then on: each call asks the loader, and calls at a key whose load is
     * under way share it. So nothing is out of date while it isn't known what others write. Once is enough.
     */
    void suspend();

    /** Forgets all keys again, what was read while the cache was suspended, and keeps what calls leave from then on. */
    void resume();

    /**
     * Whether the cache is suspended.
     *
     * @return true from the begin of a suspension to the end of its resumption
     */
    boolean isSuspended();

    /**
     * Takes all entries out that have expired and whose keys no call has reserved, and tells listeners of them. Without
     * it the room of an expired entry is free once a call meets it.
     *
     * @return how many
     * @throws javax.cache.event.CacheEntryListenerException what a synchronous listener threw
     */
    long expire();
}
