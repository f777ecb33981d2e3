package cadwrelch.jcache;

import java.util.ArrayList;
import java.util.List;
import java.util.concurrent.locks.ReentrantLock;

/**
 * The core's stripe, with keys and values that are bytes; null is no value. All methods are called with the lock of the
 * stripe held.
 */
final class DeskOfBytes extends Desk {
    private final int capacity;

    DeskOfBytes(ReentrantLock lock, Shape shape) {
        super(lock, shape);
        capacity = shape.capacity;
    }

    /** Hands bytes over. Returns their length. */
    private int write(int at, byte[] bytes) {
        if (bytes == null) {
            return Native.NO_BYTES;
        }
        buffer.position(at);
        buffer.put(bytes);
        return bytes.length;
    }

    private byte[] told(int length) {
        if (length == Native.NO_BYTES) {
            return null;
        }
        byte[] told = new byte[length];
        read(Native.VALUE_OUT, told);
        return told;
    }

    // Phases.

    int begin(int session, int op, byte[] key, byte[] value, byte[] other) {
        int keyLength = write(Native.KEY_IN, key);
        int valueLength = write(Native.VALUE_IN, value);
        return checked(Native.beginBytes(address, session, op, keyLength, valueLength, write(Native.OTHER_IN, other)));
    }

    /** The value that a get found, or null: then nothing was done. */
    byte[] hit(int session, byte[] key) {
        return told(Native.hitBytes(address, session, write(Native.KEY_IN, key)));
    }

    int commitLoad(long ticket, int answer, byte[] value) {
        return checked(Native.commitLoadBytes(address, ticket, answer, write(Native.VALUE_IN, value)));
    }

    int commitProcess(long ticket, int load, byte[] loaded, int effect, byte[] set, int write) {
        int loadedLength = write(Native.VALUE_IN, loaded);
        int setLength = write(Native.OTHER_IN, set);
        return checked(Native.commitProcessBytes(address, ticket, load, loadedLength, effect, setLength, write));
    }

    int pickUp(int session, long call, byte[] key, long load) {
        return checked(Native.pickUpBytes(address, session, call, write(Native.KEY_IN, key), load));
    }

    /** The entry's value, or null; no call is made. */
    byte[] peek(byte[] key) {
        return told(Native.peekBytes(address, write(Native.KEY_IN, key)));
    }

    /** The value that a phase has told. */
    byte[] valueBytes() {
        return told(buffer.getInt(Native.LENGTH));
    }

    /**
     * The keys that are cached.
     *
     * @throws OutOfMemoryError if a list of them can't be allocated
     */
    List<byte[]> keys() {
        try {
            int count = Native.listEntries(address, capacity);
            if (count < 0) {
                throw new OutOfMemoryError("a list of the keys of a stripe can't be allocated");
            }
            List<byte[]> keys = new ArrayList<>(count);
            for (int i = 0; i < count; i++) {
                keys.add(told(Native.entryKey(address, i)));
            }
            return keys;
        } finally {
            Native.freeEntries(address);
        }
    }
}
