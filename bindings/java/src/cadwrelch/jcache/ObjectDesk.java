package cadwrelch.jcache;

import java.util.List;
import java.util.function.Consumer;

/**
 * A stripe of the core whose keys and values are objects. The core sees a key as a number that is never given twice,
 * and a value as another one, its version; what they stand for is in the key's {@link Node}. A node follows what the
 * core says came and went with a step, and nothing else; each answer of the core is compared with it.
 */
final class ObjectDesk extends KeyedDesk {
    /** The version that no value has: what a conditional call brings if the entry isn't equal to its value. */
    private static final long NO_VALUE = 1;

    private final Desk desk;
    private long lastVersion = NO_VALUE;

    /** A stripe over a desk, whose entries age or don't; the recorder keeps its events, if it isn't null. */
    ObjectDesk(Desk desk, Counts counts, Recorder recorder, boolean ages) {
        super(desk, counts, recorder, ages);
        this.desk = desk;
    }

    @Override
    Object hit(KeyLookup sought, Node node) {
        if (node == null || !node.isShown()) {
            return null;
        }
        long version = desk.hit(Sessions.AT_ONCE, node.id);
        if (version == 0) {
            return null;
        }
        checkVersion(version, node.version);
        return node.stored;
    }

    @Override
    boolean isCached(Node node) {
        return node.isCached();
    }

    @Override
    KeyLookup lookup(Node node) {
        return new KeyLookup(node.key, node.hash, null);
    }

    @Override
    void forEachKey(Consumer<Node> action) {
        nodes().forEach(action);
    }

    @Override
    int first(Call call, Node node, int session) {
        if (call.stored != null && call.version == 0) {
            call.version = ++lastVersion;
        }
        if (call.expected == null) {
            return desk.begin(session, call.op, node.id, call.version, 0);
        }
        boolean isEqual = node.isCached() && call.isAsExpected && call.comparedVersion == node.version;
        return desk.begin(session, call.op, node.id, isEqual ? node.version : NO_VALUE, call.version);
    }

    @Override
    void noteReserved(Call call, int result) {
        call.before = call.node.stored;
        if (call.next == Native.PROCESS) {
            checkVersion(Desk.reply(result) == Native.VALUE ? desk.value() : 0, call.node.version);
        }
    }

    @Override
    int last(Call call) {
        call.loadedVersion = call.loaded == null ? 0 : ++lastVersion;
        switch (call.next) {
            case Native.ASK_LOADER:
                return desk.commitLoad(call.ticket, call.loadAnswer, call.loadedVersion);
            case Native.PROCESS:
                call.version = call.effect == Native.SET ? ++lastVersion : 0;
                return desk.commitProcess(call.ticket, call.loadAnswer, call.loadedVersion, call.effect, call.version,
                        call.writeAnswer);
            default:
                return desk.commitWrite(call.ticket, call.writeAnswer);
        }
    }

    @Override
    int askForJoined(Call call) {
        return desk.pickUp(call.session, call.callNumber, call.node.id, call.ticket);
    }

    @Override
    void noteJoined(Call call) {
        checkVersion(desk.value(), call.joined.loadedVersion);
        call.answer = call.joined.loaded;
    }

    @Override
    void noteStep(Call call, int result) {
        Node node = call.node;
        long versionBefore = node.version;
        call.before = node.stored;
        if (call.reply == Native.VALUE && call.op != Native.INVOKE) {
            call.answer = answer(call, node);
        }
        if ((result & Native.KEPT) != 0) {
            keep(call, node);
        } else if ((result & Native.LEFT) != 0) {
            node.set(null, 0);
        }
        call.after = node.stored;
        call.hasChanged = node.version != versionBefore;
        if ((result & Native.EVICTED) != 0) {
            evict(nodes().byNumber(desk.victim()));
        }
    }

    /** The value that a reply says: the entry's, or the one that was loaded for it. */
    private Object answer(Call call, Node node) {
        long version = desk.value();
        if (version == node.version) {
            return node.stored;
        }
        checkVersion(version, call.loadedVersion);
        return call.loaded;
    }

    /** The entry has the value that the call brought. */
    private static void keep(Call call, Node node) {
        boolean isLoaded = call.loadedVersion != 0 && !call.hasSet();
        node.set(call.brought(), isLoaded ? call.loadedVersion : call.version);
    }

    private void evict(Node victim) {
        victim.set(null, 0);
        counts.evictions++;
        nodes().dropUnused(victim);
    }

    private static void checkVersion(long core, long host) {
        if (core != host) {
            throw new IllegalStateException("the core has another value");
        }
    }

    @Override
    List<Object> keys(boolean withAbsent) {
        return nodes().cachedKeys(withAbsent);
    }

    @Override
    int verifyEntries() {
        nodes().forEach(node -> {
            if (desk.peek(node.id) != node.version || node.pins != 0 || !node.isCached() || node.owner != null) {
                throw new IllegalStateException("node and core differ, or a node is left: " + node.key);
            }
        });
        return nodes().size();
    }
}
