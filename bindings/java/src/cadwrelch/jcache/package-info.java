/**
 * A provider of {@code javax.cache} (JSR 107) over a core that is proved: a machine of phases, in a native library. All
 * here is ordinary Java.
 *
 * <p>From above: {@link cadwrelch.jcache.JcacheProvider} has managers, and these have caches. A {@code JcacheCache}
 * makes each call of one or more {@code Call}s, one at each key: {@code BulkCalls} in rounds, {@code Invocations} with
 * a processor between. {@code Outside} has the loader and the writer.
 *
 * <p>A key is of one {@code Stripe}, which has a lock. A call makes its first phase under it; asks outside, if it has
 * to, with the lock free; and makes its last phase under it again. {@code KeyedDesk} is what the lock guards: the
 * core's stripe, and the {@code Node}s of keys. In an {@code ObjectDesk} the core knows keys and values by numbers; in
 * a {@code ByteDesk} it has their bytes. {@code Desk} and {@code DeskOfBytes} cross to the native library by {@code
 * Native}.
 *
 * <p>Above the core: {@code Expiry} and {@code Refresher}, {@code Listeners} with an {@code EventQueue} for each stripe, {@code Counts}.
 * Beside it, {@code Recorder} keeps the core's own events, which {@link cadwrelch.jcache.Records} prints.
 *
 * <p>Locks: a stripe's, and, under it, that of {@code Waits}. Whoever tells listeners or writes a record has the turn
 * of that stripe, and takes the stripe's lock under it. Nothing of the user's runs with the lock of a stripe held.
 */
package cadwrelch.jcache;
