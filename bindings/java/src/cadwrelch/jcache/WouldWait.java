package cadwrelch.jcache;

/**
 * A call inside a loader, a writer or a processor would wait for its own thread, or for room. Its text names the key,
 * whose {@code toString} is called when it is asked for: this is thrown with the lock of a stripe held.
 */
final class WouldWait extends IllegalStateException {
    private static final long serialVersionUID = 1;

    private final transient Call call;

    WouldWait(String why, Call call) {
        super(why);
        this.call = call;
    }

    @Override
    public String getMessage() {
        return super.getMessage() + (call == null ? "" : Texts.at(call.stripe.cacheName(), call.key()));
    }
}
