package cadwrelch.jcache;

import java.util.ArrayList;
import java.util.List;

/**
 * A key that is looked up in a stripe, and what it was compared with. A key's {@code equals} may be the user's, and
 * runs with the lock free: so a look-up notes what it has compared, and looks again.
 */
final class KeyLookup {
    final Object key;
    final int hash;
    /** The bytes by which the core knows the key; null: it knows it by a number. */
    final byte[] bytes;
    /** Whether its {@code equals} is the platform's own, and may be called with the lock held. */
    final boolean isPlain;
    /** A node whose key is equal; it may be gone. */
    private Node equal;
    /** Nodes of the same hash whose keys aren't equal. */
    private List<Node> different = List.of();
    /** The key that a new node is to have; null: not made yet. */
    private Object kept;

    /** A key with its {@linkplain #hash(Object) hash}, and its bytes, if the core has them. */
    KeyLookup(Object key, int hash, byte[] bytes) {
        this.key = key;
        this.hash = hash;
        this.bytes = bytes;
        this.isPlain = Copier.isPlain(key);
    }

    /** The hash of a key, spread over all bits: high ones choose the stripe, low ones the bucket in it. */
    static int hash(Object key) {
        int hash = key.hashCode() * 0x9e3779b1;
        hash = (hash ^ hash >>> 15) * 0x85ebca77;
        return hash ^ hash >>> 13;
    }

    /** Whether the node's key is known to be equal. */
    boolean isEqual(Node node) {
        return node == equal || node.key == key || isPlain && key.equals(node.key);
    }

    /** Whether the node's key is known not to be equal. */
    boolean isDifferent(Node node) {
        return isPlain || different.contains(node);
    }

    /** Compares with a node's key. Called with no lock held. */
    void compare(Node node) {
        if (key.equals(node.key)) {
            equal = node;
        } else {
            if (different.isEmpty()) {
                different = new ArrayList<>();
            }
            different.add(node);
        }
    }

    /** The key that a new node is to have; null if it is to be copied first. */
    Object kept() {
        return isPlain ? key : kept;
    }

    /** Copies the key. Called with no lock held. */
    void copy(Copier copier) {
        kept = copier.key(key);
    }
}
