package cadwrelch.jcache;

import java.nio.ByteBuffer;
import java.nio.ByteOrder;

/**
 * An event of a stripe's history, as the native library tells it and as a record keeps it: a step of a call, or an
 * eviction.
 */
final class Event {
    private static final String[] OPERATIONS = {"get", "contains", "put", "getput", "putif", "remove", "removeif",
        "getremove", "replace", "replaceif", "getreplace", "clear", "load", "reload", "invoke"};
    private static final String[] REPLIES = {"ok", "false", "true", "-", "", "LoaderFailed", "WriterFailed",
        "ProcessorFailed"};

    /** The key's text. */
    final String key;
    private final long call;
    /** Texts of values; null: there is none. */
    private final String value;
    private final String other;
    private final String replied;
    private final String loaded;
    private final String set;
    private final int kind;
    private final int session;
    private final int op;
    private final int sharedWith;
    private final int reply;
    private final int cause;
    private final int load;
    private final int effect;
    private final int write;

    /**
     * What keys and values of an event are called. Each is a number, or how many of the bytes that follow are its own.
     */
    interface Texts {
        /** What a key is called. */
        String key(long number, ByteBuffer bytes);

        /** What a value is called; null: there is none. */
        String value(long number, ByteBuffer bytes);
    }

    /** Reads an event: the fields of told_event in shim.c, in little-endian order, and what follows them. */
    Event(byte[] from, Texts texts) {
        ByteBuffer fields = ByteBuffer.wrap(from).order(ByteOrder.LITTLE_ENDIAN);
        call = fields.getLong();
        long[] numbers = new long[6];
        fields.asLongBuffer().get(numbers);
        fields.position(fields.position() + Long.BYTES * numbers.length);
        kind = fields.getInt();
        session = fields.getInt();
        op = fields.getInt();
        sharedWith = fields.getInt();
        reply = fields.getInt();
        fields.getInt(); // The code of a failure: a provider has none but 0.
        cause = fields.getInt();
        load = fields.getInt();
        effect = fields.getInt();
        write = fields.getInt();
        key = texts.key(numbers[0], fields);
        value = texts.value(numbers[1], fields);
        other = texts.value(numbers[2], fields);
        replied = texts.value(numbers[3], fields);
        loaded = texts.value(numbers[4], fields);
        set = texts.value(numbers[5], fields);
    }

    /** The event as lines of a script and its transcript: it is at a place of a generation of a stripe. */
    String lines(int stripe, int place) {
        String at = " at " + stripe + "." + place;
        if (kind == Native.EVICTION) {
            return "evict " + key + (cause == Native.FOR_MEMORY ? " memory" : " full") + at + "\n";
        }
        String prefix = call + " " + key;
        boolean isShared = sharedWith >= 0;
        String result = reply == Native.VALUE ? replied : REPLIES[reply];
        String outside = isShared ? "" : outsideLines(prefix);
        return beginLine() + outside + prefix + " is " + result + at + (isShared ? " shared " + sharedWith : "") + "\n";
    }

    private String beginLine() {
        String values = (value == null ? "" : " " + value) + (other == null ? "" : " " + other);
        return "begin " + call + " s" + session + " " + OPERATIONS[op] + " " + key + values + "\n";
    }

    /** What the loader, the processor and the writer did. */
    private String outsideLines(String prefix) {
        String lines = "";
        String fails = call + " fails\n";
        if (load != Native.NOT_ASKED) {
            lines += load == Native.FAILED ? fails : prefix + " says " + (loaded == null ? "-" : loaded) + "\n";
        }
        if (op == Native.INVOKE) {
            lines += effectLine(prefix);
        }
        if (write != Native.NOT_ASKED) {
            lines += write == Native.FAILED ? fails : prefix + (isDelete() ? " deleted\n" : " written\n");
        }
        return lines;
    }

    /** What a processor did. */
    private String effectLine(String prefix) {
        switch (effect) {
            case Native.SET:
                return prefix + " write " + set + "\n";
            case Native.TAKE_OUT:
                return prefix + " delete\n";
            case Native.PROCESS_FAILED:
                return call + " fails\n";
            default:
                return prefix + " ready\n";
        }
    }

    private boolean isDelete() {
        return op == Native.REMOVE || op == Native.REMOVE_IF || op == Native.GET_AND_REMOVE
                || op == Native.INVOKE && effect == Native.TAKE_OUT;
    }
}
