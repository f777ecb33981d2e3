package cadwrelch.jcache;

import java.util.ArrayList;
import java.util.Arrays;
import java.util.List;
import java.util.function.Consumer;

/**
 * The nodes of a stripe, by their keys' hashes and by their numbers. The lock of the stripe guards it. It never calls a
 * method of a key that isn't {@linkplain Copier#isPlain plain}.
 */
final class NodeTable {
    /**
     * A number's low bits are the slot of its node: 4,096 entries and the keys that 64 calls have reserved and 64
     * others have joined.
     */
    private static final int SLOT_BITS = 13;
    private static final int SLOTS_MAX = 1 << SLOT_BITS;
    private static final int SMALLEST = 16;

    /** Whether its nodes are {@link Node.Aging}. */
    private final boolean ages;
    /** The first node of each bucket; a power of two. */
    private Node[] buckets = new Node[SMALLEST];
    private Node[] slots = new Node[SMALLEST];
    private short[] freeSlots = new short[SMALLEST];
    private int freeCount;
    private int slotCount;
    private int hiddenCount;
    /** How many numbers were given: 2^50 are enough for 35 years of a million new keys a second. */
    private long given;

    NodeTable(boolean ages) {
        this.ages = ages;
    }

    /**
     * The node of a key, or of the first key of the same hash with which it has to be compared; null if there is
     * neither.
     */
    Node find(KeyLookup sought) {
        Node node = buckets[sought.hash & buckets.length - 1];
        while (node != null && (node.hash != sought.hash || !sought.isEqual(node) && sought.isDifferent(node))) {
            node = node.next;
        }
        return node;
    }

    /** A new node of a key, with a new number. */
    Node add(Object key, int hash) {
        if (size() == buckets.length) {
            growBuckets();
        }
        int slot = nextSlot();
        long id = ++given << SLOT_BITS | slot;
        Node node = ages ? new Node.Aging(key, hash, id) : new Node(key, hash, id);
        // Nothing is allocated from here on.
        if (slot == slotCount) {
            slotCount++;
        } else {
            freeCount--;
        }
        slots[slot] = node;
        insert(node);
        return node;
    }

    private void insert(Node node) {
        int bucket = node.hash & buckets.length - 1;
        node.next = buckets[bucket];
        buckets[bucket] = node;
    }

    /** The slot that the next node gets. There is room for it afterwards, and for it among the free ones. */
    private int nextSlot() {
        if (freeCount > 0) {
            return freeSlots[freeCount - 1];
        }
        if (slotCount == SLOTS_MAX) {
            throw new IllegalStateException("a stripe has more keys than the core can know");
        }
        if (slotCount == slots.length) {
            short[] moreFreeSlots = Arrays.copyOf(freeSlots, 2 * slotCount);
            slots = Arrays.copyOf(slots, 2 * slotCount);
            freeSlots = moreFreeSlots;
        }
        return slotCount;
    }

    private void growBuckets() {
        Node[] old = buckets;
        buckets = new Node[2 * old.length];
        for (Node first : old) {
            Node node = first;
            while (node != null) {
                Node next = node.next;
                insert(node);
                node = next;
            }
        }
    }

    /** Takes a node out if nobody needs it. */
    void dropUnused(Node node) {
        int slot = slotOf(node.id);
        if (!node.isUnused() || slots[slot] != node) {
            return;
        }
        slots[slot] = null;
        freeSlots[freeCount++] = (short) slot;
        int bucket = node.hash & buckets.length - 1;
        if (buckets[bucket] == node) {
            buckets[bucket] = node.next;
            return;
        }
        Node before = buckets[bucket];
        while (before.next != node) {
            before = before.next;
        }
        before.next = node.next;
    }

    /** Hides a node, which is as if its key had no entry and no load. */
    void hide(Node node) {
        hiddenCount += node.isHidden ? 0 : 1;
        node.isHidden = true;
    }

    /** Hides a node no longer. */
    void show(Node node) {
        hiddenCount -= node.isHidden ? 1 : 0;
        node.isHidden = false;
    }

    int hiddenCount() {
        return hiddenCount;
    }

    private static int slotOf(long id) {
        return (int) (id & SLOTS_MAX - 1);
    }

    /**
     * The node of a number that the core names.
     *
     * @throws IllegalStateException if there is none
     */
    Node byNumber(long id) {
        Node node = slots[slotOf(id)];
        if (node == null || node.id != id) {
            throw new IllegalStateException("the core names a key that isn't there");
        }
        return node;
    }

    /** How many nodes there are. */
    int size() {
        return slotCount - freeCount;
    }

    /** Does something with each node, which may drop that one, and add none. */
    void forEach(Consumer<Node> action) {
        for (Node node : slots) {
            if (node != null) {
                action.accept(node);
            }
        }
    }

    /** The keys that are shown, with those that are known to be absent, or without. */
    List<Object> cachedKeys(boolean withAbsent) {
        List<Object> keys = new ArrayList<>(size());
        forEach(node -> {
            if (node.isShown() && (withAbsent || !node.isAbsent())) {
                keys.add(node.key);
            }
        });
        return keys;
    }

    /** Forgets all nodes. */
    void clear() {
        buckets = new Node[SMALLEST];
        slots = new Node[SMALLEST];
        freeSlots = new short[SMALLEST];
        freeCount = 0;
        slotCount = 0;
        hiddenCount = 0;
    }
}
