package cadwrelch.jcache;

/** Finds the nodes of keys in a stripe whose lock is held. It is free while a method of the user's is called for that. */
final class NodeFinder {
    private final Stripe stripe;
    private final KeyedDesk desk;
    private final CacheContext<?, ?> context;

    NodeFinder(Stripe stripe, KeyedDesk desk, CacheContext<?, ?> context) {
        this.stripe = stripe;
        this.desk = desk;
        this.context = context;
    }

    /**
     * The node of a call's key, which may be new. What of the user's has to be called for that is called with the lock
     * free.
     */
    Node locate(Call call) {
        KeyLookup sought = call.lookup;
        for (;;) {
            stripe.checkOpen();
            Node node = find(sought);
            if (node == null && sought.kept() != null) {
                stripe.checkOpen();
                return desk.add(sought.kept(), sought.hash);
            }
            if (node != null && !call.hasToCompare(node)) {
                stripe.checkOpen();
                return node;
            }
            Object cached = node == null ? null : node.stored;
            long version = node == null ? 0 : node.version;
            stripe.lock.unlock();
            try {
                if (node == null) {
                    context.copyKey(sought);
                } else {
                    call.compare(context.copier, cached, version);
                }
            } finally {
                stripe.lock.lock();
            }
        }
    }

    /** The node of a key, or null. The lock may have been free meanwhile, and is held. */
    Node find(KeyLookup sought) {
        for (;;) {
            Node node = desk.nodes().find(sought);
            if (node == null || sought.isEqual(node)) {
                return node;
            }
            stripe.lock.unlock();
            try {
                sought.compare(node);
            } finally {
                stripe.lock.lock();
            }
        }
    }
}
