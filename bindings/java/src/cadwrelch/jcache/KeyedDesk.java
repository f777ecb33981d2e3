package cadwrelch.jcache;

import java.util.List;
import java.util.function.Consumer;

/**
 * A stripe of the core with the keys that its calls have reserved or joined: what is the same whether the core knows
 * keys and values by numbers or has their bytes. The lock of the stripe guards it all, and nothing of the user's is
 * called here.
 */
abstract class KeyedDesk {
    final Counts counts;
    private final Desk desk;
    /** What keeps the events; null if nothing does. */
    private final Recorder recorder;
    private final NodeTable nodes;
    private final Sessions sessions = new Sessions();
    private boolean isFreed;

    /** A stripe over a desk, whose nodes age or don't; the recorder keeps its events, if it isn't null. */
    KeyedDesk(Desk desk, Counts counts, Recorder recorder, boolean ages) {
        nodes = new NodeTable(ages);
        this.desk = desk;
        this.counts = counts;
        this.recorder = recorder;
    }

    // What the forms differ in.

    /**
     * A get that finds its entry: what is cached of it; or null, and nothing was done. The node is the key's, or null.
     */
    abstract Object hit(KeyLookup sought, Node node);

    /** Whether the key of the node is cached. */
    abstract boolean isCached(Node node);

    /** The key of a node, to be looked up. */
    abstract KeyLookup lookup(Node node);

    /** Does something with a node of each key that is cached, reserved or joined. It may drop the node. */
    abstract void forEachKey(Consumer<Node> action);

    /** The core's first phase, of a call in a session. */
    abstract int first(Call call, Node node, int session);

    /** The core's last phase of a call, of whose loader, writer or processor all is noted in it. */
    abstract int last(Call call);

    /** Asks the core for what the call has joined. */
    abstract int askForJoined(Call call);

    /** Notes the value that a joiner is replied. */
    abstract void noteJoined(Call call);

    /** A call has reserved its key: notes what is cached at it. */
    abstract void noteReserved(Call call, int result);

    /** A step was made, and its reply is noted: notes what it left. */
    abstract void noteStep(Call call, int result);

    /** The keys that are cached, with those that are known to be absent, or without. */
    abstract List<Object> keys(boolean withAbsent);

    /**
     * For tests, while no call is under way: whether what is here is what the core has. How many entries there are.
     *
     * @throws IllegalStateException if it isn't
     */
    abstract int verifyEntries();

    // Nodes.

    NodeTable nodes() {
        return nodes;
    }

    /** A new node of a key. */
    Node add(Object key, int hash) {
        Node node = nodes.add(key, hash);
        if (recorder != null) {
            recorder.name(node);
        }
        return node;
    }

    // First phases.

    /**
     * The first phase of a call. Its next says what follows. If it was refused, its blocker is who has reserved the
     * key, if that is why.
     */
    void begin(Call call, Node node) {
        int session = sessions.take();
        int result;
        try {
            result = firstWithRoom(call, node, session);
        } catch (RuntimeException | Error e) {
            sessions.give(session);
            throw e;
        }
        call.node = node;
        call.next = Desk.next(result);
        switch (call.next) {
            case Native.DONE:
                sessions.give(session);
                finish(call, result);
                break;
            case Native.REFUSED:
                sessions.give(session);
                call.blocker = desk.refusal() == Native.BUSY ? node.owner : null;
                break;
            case Native.FULL:
                sessions.give(session);
                call.next = Native.REFUSED;
                call.blocker = null;
                break;
            default:
                takeOut(call, session, result);
        }
    }

    /**
     * A full generation of a history that is kept is taken and ended. The result says FULL if that can't be done now.
     */
    private int firstWithRoom(Call call, Node node, int session) {
        int result = first(call, node, session);
        while (Desk.next(result) == Native.FULL && recorder.endGeneration(desk)) {
            result = first(call, node, session);
        }
        if (Desk.next(result) == Native.REFUSED && desk.refusal() == Native.HISTORY_FULL) {
            throw new IllegalStateException("a stripe's count of calls is at its end");
        }
        return result;
    }

    /** The call has reserved its key or has joined a load. */
    private void takeOut(Call call, int session, int result) {
        Node node = call.node;
        call.session = session;
        call.ticket = desk.ticket();
        call.callNumber = desk.callNumber();
        node.pins++;
        if (call.next == Native.JOINED) {
            call.joined = node.owner;
            if (call.joined.ticket != call.ticket) {
                throw new IllegalStateException("the core names another load");
            }
            return;
        }
        node.owner = call;
        try {
            noteReserved(call, result);
        } catch (RuntimeException | Error e) {
            withdraw(call);
            throw e;
        }
    }

    /** Takes an entry out that has expired or is out of date, as a step of its own. False: it can't be done now. */
    boolean clear(Node node) {
        Call call = new Call(Native.CLEAR, lookup(node));
        if (Desk.next(firstWithRoom(call, node, Sessions.AT_ONCE)) != Native.DONE) {
            return false;
        }
        node.set(null, 0);
        return true;
    }

    // Last phases.

    /**
     * The last phase of a call that has asked its loader, writer or processor. Even if there is no memory to note what
     * it left, it is over then.
     */
    void commit(Call call) {
        int result = last(call);
        call.node.owner = null;
        try {
            finish(call, result);
        } finally {
            leave(call);
        }
    }

    /** Gives up a call that has reserved its key and asked nobody. */
    void withdraw(Call call) {
        desk.withdraw(call.ticket);
        call.node.owner = null;
        leave(call);
    }

    /**
     * Picks up what a load that the call has joined has answered. The load is over. Its next is done, or to begin anew.
     */
    void pickUp(Call call) {
        int result = askForJoined(call);
        call.next = Desk.next(result);
        if (call.next != Native.DONE && call.next != Native.AGAIN) {
            throw new IllegalStateException("the core says that a load isn't over");
        }
        try {
            if (call.next == Native.DONE) {
                notePickedUp(call, Desk.reply(result));
            }
        } finally {
            leave(call);
        }
    }

    private void notePickedUp(Call call, int reply) {
        call.reply = reply;
        call.cause = call.joined.cause;
        if (reply == Native.VALUE) {
            noteJoined(call);
        }
    }

    private void finish(Call call, int result) {
        call.next = Native.DONE;
        call.reply = Desk.reply(result);
        noteStep(call, result);
        if ((result & Native.OWN_EVICTED) != 0) {
            counts.evictions++;
        }
    }

    private void leave(Call call) {
        call.node.pins--;
        sessions.give(call.session);
        nodes.dropUnused(call.node);
    }

    // The stripe as a whole.

    /** Frees the core's memory and forgets all nodes, if no call is under way, once. */
    void freeIfIdle() {
        if (isFreed || !sessions.areFree()) {
            return;
        }
        isFreed = true;
        try {
            if (recorder != null) {
                recorder.end(desk);
            }
        } finally {
            desk.close();
            nodes.clear();
        }
    }

    /**
     * For tests, while no call is under way: that what is here is what the core has, and nothing is out. How many
     * entries there are.
     *
     * @throws IllegalStateException if it isn't so
     */
    int verify() {
        if (!sessions.areFree()) {
            throw new IllegalStateException("something is out");
        }
        return verifyEntries();
    }

    /** Hits, misses, puts, removals and evictions, as the core counts them. */
    long[] coreCounts() {
        return desk.statistics();
    }
}
