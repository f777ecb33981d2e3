package cadwrelch.jcache;

/**
 * Which nodes of a stripe are hidden, since what is cached at them, or what the call leaves that has reserved them, is
 * out of date ({@link Invalidation}). It is dropped at once, or when the reservation ends, or, if the core's history
 * has no place for that step, when there is one. The lock of the stripe guards it, and nothing of the user's is called.
 */
final class Hiding {
    private final KeyedDesk desk;
    /** Whether entries stay that calls leave. */
    private boolean keeps = true;
    /** Whether a hidden node may be there whose key nobody has reserved. */
    private boolean isLate;

    Hiding(KeyedDesk desk) {
        this.desk = desk;
    }

    /** What is known of a node's key by now is out of date. It may be of no use afterwards. */
    void invalidate(Node node) {
        if (node.owner == null) {
            drop(node);
        } else {
            desk.nodes().hide(node);
        }
        desk.nodes().dropUnused(node);
    }

    /** The same of all keys. How many nodes are hidden afterwards. */
    int invalidateAll() {
        desk.forEachKey(this::invalidate);
        return desk.nodes().hiddenCount();
    }

    /** The same, and whether entries stay from now on that calls leave. */
    int invalidateAll(boolean nowKeeps) {
        keeps = nowKeeps;
        return invalidateAll();
    }

    /** Whether a call may not begin, since its node is hidden. Its blocker is who it waits for; null: it is for room. */
    boolean isOvertaken(Call call, Node node) {
        call.blocker = node.owner;
        if (node.isHidden && node.owner == null) {
            drop(node);
        }
        return node.isHidden;
    }

    /** A call has made its step without a reservation. */
    void stepped(Node node) {
        if (!keeps && node.owner == null) {
            drop(node);
        }
    }

    /** A call is about to end a reservation by its step. */
    void committing(Node node) {
        if (!keeps) {
            desk.nodes().hide(node);
        }
    }

    /** A reservation was ended. */
    void released(Node node) {
        if (node.isHidden) {
            drop(node);
            desk.nodes().dropUnused(node);
        }
    }

    /** A call has left: perhaps there is room. */
    void left() {
        if (isLate) {
            isLate = false;
            desk.nodes().forEach(node -> {
                if (node.owner == null) {
                    released(node);
                }
            });
        }
    }

    /** Drops the entry of a key that nobody has reserved, or hides it until that can be done. */
    private void drop(Node node) {
        boolean isGone = false;
        try {
            isGone = !desk.isCached(node) || desk.clear(node);
        } finally {
            if (isGone) {
                desk.nodes().show(node);
            } else {
                desk.nodes().hide(node);
                isLate = true;
            }
        }
    }
}
