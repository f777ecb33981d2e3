package cadwrelch.jcache;

import java.lang.ref.Cleaner;
import java.nio.ByteBuffer;
import java.nio.ByteOrder;
import java.util.concurrent.locks.ReentrantLock;

/**
 * The core's stripe: its memory, and the buffer that it tells through; with keys and values that are numbers. All
 * methods are called with the lock of the stripe held. The memory is freed by {@link #close}, or once nobody can reach
 * that lock any more: whoever is inside the core has it.
 */
class Desk {
    private static final Cleaner CLEANER = Cleaner.create();

    final ByteBuffer buffer;
    final long address;
    private final Memory memory;
    private final Cleaner.Cleanable cleanable;

    /**
     * Opens a stripe.
     *
     * @throws OutOfMemoryError if its memory can't be allocated
     */
    Desk(ReentrantLock lock, Shape shape) {
        int size = shape.hasBytes ? Native.OUT_OF_BYTES : Native.OUT;
        buffer = ByteBuffer.allocateDirect(size).order(ByteOrder.nativeOrder());
        address = Native.open(shape.capacity, shape.history, shape.readsThrough, shape.writesThrough, shape.keepsEvents,
                shape.hasBytes, buffer);
        if (address == 0) {
            throw new OutOfMemoryError("a stripe of a cache can't be allocated");
        }
        memory = new Memory(address);
        cleanable = CLEANER.register(lock, memory);
    }

    /** How a stripe is made. */
    static final class Shape {
        final int capacity;
        final int history;
        final boolean readsThrough;
        final boolean writesThrough;
        final boolean keepsEvents;
        final boolean hasBytes;

        /** That of a stripe of a cache, by its index. */
        Shape(Settings settings, int stripe, Outside<?, ?> outside, boolean hasBytes) {
            capacity = settings.capacityOf(stripe);
            history = settings.history;
            readsThrough = outside.readsThrough();
            writesThrough = outside.writesThrough();
            keepsEvents = settings.record != null;
            this.hasBytes = hasBytes;
        }
    }

    /** What is to be freed. It refers to nothing else, so it keeps nothing alive. */
    private static final class Memory implements Runnable {
        private final long address;
        private int code;

        Memory(long address) {
            this.address = address;
        }

        @Override
        public void run() {
            code = Native.close(address);
        }
    }

    /** Frees the memory. Nothing may be out. */
    final void close() {
        cleanable.clean();
        checked(memory.code);
    }

    /**
     * A result that is none of misuse.
     *
     * @throws IllegalStateException if it is one: an error of the provider
     */
    static int checked(int result) {
        if (result < 0) {
            throw new IllegalStateException("the core refuses a phase: code " + -result);
        }
        return result;
    }

    static int next(int result) {
        return result & Native.NEXT;
    }

    static int reply(int result) {
        return result >> Native.REPLY_SHIFT & Native.NEXT;
    }

    // Phases.

    final int begin(int session, int op, long key, long value, long other) {
        return checked(Native.begin(address, session, op, key, value, other));
    }

    final long hit(int session, long key) {
        return Native.hit(address, session, key);
    }

    final int commitLoad(long ticket, int answer, long value) {
        return checked(Native.commitLoad(address, ticket, answer, value));
    }

    final int commitWrite(long ticket, int answer) {
        return checked(Native.commitWrite(address, ticket, answer));
    }

    final int commitProcess(long ticket, int load, long loaded, int effect, long set, int write) {
        return checked(Native.commitProcess(address, ticket, load, loaded, effect, set, write));
    }

    final void withdraw(long ticket) {
        checked(Native.withdraw(address, ticket));
    }

    final int pickUp(int session, long call, long key, long load) {
        return checked(Native.pickUp(address, session, call, key, load));
    }

    final long peek(long key) {
        return Native.peek(address, key);
    }

    // What a phase has told.

    final long ticket() {
        return buffer.getLong(Native.NUMBER);
    }

    final long callNumber() {
        return buffer.getLong(Native.CALL_NUMBER);
    }

    final long value() {
        return buffer.getLong(Native.VALUE_AT);
    }

    final long victim() {
        return buffer.getLong(Native.VICTIM_AT);
    }

    /** Why a first phase was refused. */
    final int refusal() {
        return buffer.getInt(Native.CODE);
    }

    // Events and counts.

    final int eventCount() {
        return Native.eventCount(address);
    }

    /** The event at a place of the present generation, as {@link Event} reads it. */
    final byte[] event(int place) {
        byte[] event = new byte[checked(Native.event(address, place))];
        read(0, event);
        return event;
    }

    /** Reads bytes of the buffer. */
    final void read(int at, byte[] to) {
        buffer.position(at);
        buffer.get(to);
    }

    /** Ends the present generation. False: an answer of a load wasn't picked up yet, or it has no event. */
    final boolean endGeneration() {
        int code = Native.endGeneration(address);
        return code != -Native.IN_USE && checked(code) == Native.OK;
    }

    /** Hits, misses, puts, removals and evictions, as the core counts them. */
    final long[] statistics() {
        checked(Native.statistics(address));
        long[] counts = new long[5];
        for (int i = 0; i < counts.length; i++) {
            counts[i] = buffer.getLong(Long.BYTES * i);
        }
        return counts;
    }
}
