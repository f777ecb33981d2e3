import java.io.Serializable;
import java.lang.management.ManagementFactory;
import java.util.Collections;
import java.util.HashMap;
import java.util.Locale;
import java.util.Map;

/**
 * Calls of one kind on a cache in Java, one after another, for bench/peers. It prints a line for each round that is measured: the nanoseconds
 * of processor time that one call took, of the whole process. The rounds before them warm it up.
 *
 * usage: Peers CLASS hit|mixed|miss|put CALLS WARM-UPS ROUNDS
 */
public final class Peers {
    static final int KEYS = 1024;

    /** What the calls are. */
    enum Kind { HIT, MIXED, MISS, PUT }

    /** What a cache is compared by. */
    interface Peer {
        /** What is cached at a key, or null. */
        Object get(Bytes key);

        /** Caches a value. */
        void put(Bytes key, Bytes value);

        /** What is cached, else what the loader finds, or null. */
        Object getThrough(Bytes key);

        /** Writes a value by the writer, and caches it. */
        void putThrough(Bytes key, Bytes value);
    }

    /** A key or a value of 16 bytes. Its hash is computed at each call, as in the other languages. */
    static final class Bytes implements Serializable {
        private final long first;
        private final long second;

        Bytes(long first, long second) {
            this.first = first;
            this.second = second;
        }

        @Override
        public boolean equals(Object other) {
            return other instanceof Bytes && ((Bytes) other).first == first && ((Bytes) other).second == second;
        }

        @Override
        public int hashCode() {
            return 31 * Long.hashCode(first) + Long.hashCode(second);
        }
    }

    /** The store of record, behind a lock. */
    static final Map<Bytes, Bytes> STORE = Collections.synchronizedMap(new HashMap<>());

    private final Peer peer;
    private final Bytes[] keys = keys('a');
    private final Bytes value = new Bytes(1, 2);

    private Peers(Peer peer) {
        this.peer = peer;
    }

    /** The keys. Those of another kind differ in their first byte. */
    private static Bytes[] keys(char kind) {
        Bytes[] keys = new Bytes[KEYS];
        for (int i = 0; i < KEYS; i++) {
            keys[i] = new Bytes((long) kind << 56 | 0x206b6579203136L, 0x2062797465730000L | i / 64 << 8 | i % 64);
        }
        return keys;
    }

    private boolean call(Kind kind, int turn) {
        Bytes key = keys[turn % KEYS];
        switch (kind) {
            case HIT:
                return peer.get(key) == value;
            case MISS:
                return peer.getThrough(key) == null;
            case PUT:
                peer.putThrough(key, value);
                return true;
            default:
                if (turn % 10 < 2) {
                    peer.put(key, value);
                    return true;
                }
                return peer.get(key) == value;
        }
    }

    private int count(Kind kind, int calls) {
        int done = 0;
        for (int turn = 0; turn < calls; turn++) {
            if (call(kind, turn)) {
                done++;
            }
        }
        return done;
    }

    private static long processorTime() {
        return ((com.sun.management.OperatingSystemMXBean) ManagementFactory.getOperatingSystemMXBean()).getProcessCpuTime();
    }

    public static void main(String[] words) throws Exception {
        Kind kind = Kind.valueOf(words[1].toUpperCase(Locale.ROOT));
        int calls = Integer.parseInt(words[2]);
        int warmUps = Integer.parseInt(words[3]);
        int rounds = Integer.parseInt(words[4]);
        Peers peers = new Peers((Peer) Class.forName(words[0]).getDeclaredConstructor().newInstance());
        // Where no key is to be found, others are cached.
        for (Bytes key : kind == Kind.MISS ? keys('b') : peers.keys) {
            peers.peer.put(key, peers.value);
            peers.peer.putThrough(key, peers.value);
        }
        for (int round = 0; round < warmUps + rounds; round++) {
            long begun = processorTime();
            int done = peers.count(kind, calls);
            long spent = processorTime() - begun;
            if (done != calls) {
                throw new IllegalStateException(done + " of " + calls + " did as their kind says");
            }
            if (round >= warmUps) {
                System.out.println((double) spent / calls);
            }
        }
        System.exit(0);
    }
}
