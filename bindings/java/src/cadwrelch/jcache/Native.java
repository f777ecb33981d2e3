package cadwrelch.jcache;

import java.nio.ByteBuffer;

/**
 * The core's phases, one by one: what {@code cadwrelch.h} has, with keys and values as numbers, or as bytes in the
 * stripe's buffer. Each is called with the lock of its stripe held; so are the other functions of a stripe. A result of
 * a phase is an int: negative, it is a code of misuse; else its bits are {@link #NEXT}, the reply and the moves. What a
 * phase tells beside that is in the stripe's buffer. Of the constants here the compiler makes a header, by which
 * {@code shim.c} compares them with those of C.
 */
final class Native {
    /** What a call is to do next: the low bits of a result. */
    static final int NEXT = 0xf;
    static final int DONE = 0;
    static final int ASK_LOADER = 1;
    static final int WRITE = 2;
    static final int DELETE = 3;
    static final int PROCESS = 4;
    static final int JOINED = 5;
    static final int REFUSED = 6;
    static final int AGAIN = 7;
    static final int FULL = 9;

    /** Where a result has its reply. */
    static final int REPLY_SHIFT = 4;
    static final int NO = 1;
    static final int YES = 2;
    static final int VALUE = 4;
    static final int LOADER_FAILED = 5;
    static final int WRITER_FAILED = 6;
    static final int PROCESSOR_FAILED = 7;

    /**
     * Moves: the entry has the value that the call brought; it had one that it has no more; another entry was evicted;
     * its own was.
     */
    static final int MOVES_SHIFT = 8;
    static final int KEPT = 1 << MOVES_SHIFT;
    static final int LEFT = 2 << MOVES_SHIFT;
    static final int EVICTED = 4 << MOVES_SHIFT;
    static final int OWN_EVICTED = 8 + 16 << MOVES_SHIFT;

    static final int GET = 0;
    static final int CONTAINS_KEY = 1;
    static final int PUT = 2;
    static final int GET_AND_PUT = 3;
    static final int PUT_IF_ABSENT = 4;
    static final int REMOVE = 5;
    static final int REMOVE_IF = 6;
    static final int GET_AND_REMOVE = 7;
    static final int REPLACE = 8;
    static final int REPLACE_IF = 9;
    static final int GET_AND_REPLACE = 10;
    static final int CLEAR = 11;
    static final int LOAD = 12;
    static final int RELOAD = 13;
    static final int INVOKE = 14;

    /** What a loader (or a writer: {@link #FOUND} is written) answered. */
    static final int NOT_ASKED = 0;
    static final int FOUND = 1;
    static final int NOTHING = 2;
    static final int FAILED = 3;

    /** A processor's net effect. */
    static final int KEEP = 0;
    static final int SET = 1;
    static final int TAKE_OUT = 2;
    static final int PROCESS_FAILED = 3;

    /** Why a first phase was refused. */
    static final int HISTORY_FULL = 0;
    static final int BUSY = 1;

    static final int OK = 0;
    static final int IN_USE = 5;

    /** The kind of an event that isn't a step, and its cause if that isn't room. */
    static final int EVICTION = 1;
    static final int FOR_MEMORY = 1;

    /** Where the buffer has what a phase tells. */
    static final int NUMBER = 0;
    static final int CALL_NUMBER = 8;
    static final int VALUE_AT = 16;
    static final int VICTIM_AT = 24;
    static final int CODE = 32;
    static final int LENGTH = 36;
    /** Where the buffer of a stripe of bytes has those of a key, of two values, and of the value that is told. */
    static final int KEY_IN = 128;
    static final int VALUE_IN = 160;
    static final int OTHER_IN = 416;
    static final int VALUE_OUT = 672;
    /** The size of a stripe's buffer, of numbers and of bytes. */
    static final int OUT = 128;
    static final int OUT_OF_BYTES = 1440;
    /** The length of what isn't there. */
    static final int NO_BYTES = -1;
    /** The longest key and value of bytes. */
    static final int KEY_MAX = 32;
    static final int VALUE_MAX = 256;

    static {
        NativeLibrary.require(System.getProperty(NativeLibrary.PROPERTY));
        int refused = register();
        if (refused != 0) {
            throw new UnsatisfiedLinkError("the native library isn't of the version of cadwrelch.jcache's classes: "
                    + (refused < 0 ? "it has other functions" : "its core is of version " + refused));
        }
    }

    private Native() {
    }

    /**
     * Binds all methods below, which needs stack that a first call may not have.
     *
     * @return 0; or, with nothing bound, the core's version if that isn't the one that the library was compiled for; or less than 0
     */
    private static native int register();

    /** Whether the thread has stack left for a first phase and for the last one of the same call. */
    static native boolean hasStack();

    /**
     * The address of a new stripe, which tells what it has to tell through the buffer; 0 if memory can't be allocated.
     */
    static native long open(int capacity, int history, boolean read, boolean write, boolean keepsEvents,
            boolean hasBytes, ByteBuffer out);

    /** Frees a stripe, if nothing is out. */
    static native int close(long stripe);

    /** The first phase of a call. */
    static native int begin(long stripe, int session, int op, long key, long value, long other);

    /** The version of the entry that a get found, or 0: then nothing was done. */
    static native long hit(long stripe, int session, long key);

    /** The last phase of a call whose loader was asked. */
    static native int commitLoad(long stripe, long ticket, int answer, long value);

    /** The last phase of a call whose writer was asked. */
    static native int commitWrite(long stripe, long ticket, int answer);

    /** The last phase of a call whose processor ran. */
    static native int commitProcess(long stripe, long ticket, int load, long loaded, int effect, long set, int write);

    /** Gives back a reservation for which nobody was asked. */
    static native int withdraw(long stripe, long ticket);

    /** Asks for the answer of a load that the call has joined. */
    static native int pickUp(long stripe, int session, long call, long key, long load);

    /** The version of the entry, or 0; no call is made. */
    static native long peek(long stripe, long key);

    // The same, of a stripe of bytes: a key and values are in the buffer, and their lengths are handed over.

    /** The first phase of a call. */
    static native int beginBytes(long stripe, int session, int op, int keyLength, int valueLength, int otherLength);

    /** The length of the value that a get found, which is told, or {@link #NO_BYTES}: then nothing was done. */
    static native int hitBytes(long stripe, int session, int keyLength);

    /** The length of the entry's value, which is told, or {@link #NO_BYTES}; no call is made. */
    static native int peekBytes(long stripe, int keyLength);

    /** The last phase of a call whose loader was asked. */
    static native int commitLoadBytes(long stripe, long ticket, int answer, int valueLength);

    /**
     * The last phase of a call whose processor ran: the loaded value is the first one, the one that it set the other.
     */
    static native int commitProcessBytes(long stripe, long ticket, int load, int loadedLength, int effect,
            int setLength, int write);

    /** Asks for the answer of a load that the call has joined. */
    static native int pickUpBytes(long stripe, int session, long call, int keyLength, long load);

    /** Lists what is cached, for {@link #entryKey}. How many entries there are; -1: a list can't be allocated. */
    static native int listEntries(long stripe, int capacity);

    /** The length of the key of an entry of the list, which is told as a value. */
    static native int entryKey(long stripe, int index);

    /** Frees the list. */
    static native void freeEntries(long stripe);

    // Counts and events.

    /**
     * Hits, misses, puts, removals and evictions since the stripe was opened, as the core counts them: five longs in
     * the buffer.
     */
    static native int statistics(long stripe);

    /** How many events the present generation has. */
    static native int eventCount(long stripe);

    /** Tells an event of the present generation, as {@link Event} reads it, and how many bytes it takes. */
    static native int event(long stripe, int place);

    /** Ends the present generation. */
    static native int endGeneration(long stripe);
}
