package cadwrelch.jcache;

import java.io.BufferedOutputStream;
import java.io.DataOutputStream;
import java.io.IOException;
import java.lang.ref.WeakReference;
import java.net.URLEncoder;
import java.nio.charset.StandardCharsets;
import java.nio.file.Files;
import java.nio.file.Path;
import java.nio.file.StandardOpenOption;
import java.util.ArrayList;
import java.util.HashMap;
import java.util.List;
import java.util.Map;
import java.util.Queue;
import java.util.concurrent.ConcurrentLinkedQueue;
import java.util.concurrent.locks.ReentrantLock;
import javax.cache.CacheException;

/**
 * Keeps the events of a stripe. They are taken when their generation ends, with the lock of the stripe held, and
 * written to the stripe's file with it free, by the call that took them, with the texts of the keys that the core knows
 * by numbers. {@link Records} prints such files.
 *
 * <p>A file is a row of parts, each a byte and what it says: {@link #OPENED}, the stripe's number as an int, and the
 * forms of its keys and of its values, a byte each; {@link #KEY}, a number and a text; {@link #EVENTS}, how many there
 * are as an int, and they, each its length as a short and its bytes; {@link #CLOSED}.
 */
final class Recorder {
    static final int OPENED = 'o';
    static final int KEY = 'k';
    static final int EVENTS = 'e';
    static final int CLOSED = 'c';
    /** The end of the name of a stripe's file. */
    static final String FILE_END = ".events";
    /** The longest text of a key, in characters; what is longer is cut. */
    private static final int TEXT_MAX = 1000;

    /** The form of what the core knows by numbers; the others are the ordinals of {@link ByteForm}. */
    static final int NUMBERS = -1;

    /** Who writes which file, in this virtual machine. A recorder that nobody can reach has stopped. */
    private static final Map<Path, WeakReference<Recorder>> WRITERS = new HashMap<>();

    private final Path file;
    private final int stripe;
    private final boolean hasNumbers;
    /** The keys that were given a number since the last generation ended. The lock of the stripe guards it. */
    private List<Node> named = new ArrayList<>();
    /** What was taken and isn't written. */
    private final Queue<Generation> taken = new ConcurrentLinkedQueue<>();
    /** Whoever has it writes. No lock of a stripe is taken with it. */
    private final ReentrantLock turn = new ReentrantLock();
    private boolean isBroken;
    private volatile boolean hasEnded;

    private Recorder(Path file, int stripe, boolean hasNumbers) {
        this.file = file;
        this.stripe = stripe;
        this.hasNumbers = hasNumbers;
    }

    /** The events of a generation, and the keys that were given a number in it. */
    private static final class Generation {
        final List<Node> named;
        final List<byte[]> events;
        final boolean isLast;

        Generation(List<Node> named, List<byte[]> events, boolean isLast) {
            this.named = named;
            this.events = events;
            this.isLast = isLast;
        }
    }

    /**
     * What keeps the events of a stripe, if the settings say so; else null. The file is FOLDER/CACHE-STRIPE.events;
     * what it has is kept.
     *
     * @throws CacheException if it can't be written, or another cache that isn't closed writes it
     */
    static Recorder open(String cacheName, int stripe, Settings settings, Copier copier) {
        if (settings.record == null) {
            return null;
        }
        String name = URLEncoder.encode(cacheName, StandardCharsets.UTF_8) + "-" + stripe + FILE_END;
        ByteCopier bytes = copier instanceof ByteCopier ? (ByteCopier) copier : null;
        try {
            Recorder recorder = new Recorder(realFolder(Path.of(settings.record.text)).resolve(name), stripe, bytes == null);
            recorder.claimFile();
            recorder.writeOpening(bytes);
            return recorder;
        } catch (IOException e) {
            throw new CacheException("no record can be written to " + settings.record.text + ", which "
                    + settings.record.name + " names", e);
        }
    }

    /** The one name of a folder that may have others. It is made if it isn't there. */
    private static Path realFolder(Path folder) throws IOException {
        Files.createDirectories(folder);
        return folder.toRealPath();
    }

    private void claimFile() {
        synchronized (WRITERS) {
            WeakReference<Recorder> reference = WRITERS.get(file);
            Recorder writer = reference == null ? null : reference.get();
            if (writer != null && !writer.hasEnded) {
                throw new CacheException("another cache of the same name writes its record to " + file);
            }
            WRITERS.put(file, new WeakReference<>(this));
        }
    }

    /** Writes that the file is opened. The copier of bytes is null if the core knows keys and values by numbers. */
    private void writeOpening(ByteCopier bytes) throws IOException {
        try (DataOutputStream out = append()) {
            out.writeByte(OPENED);
            out.writeInt(stripe);
            out.writeByte(bytes == null ? NUMBERS : bytes.keyForm().ordinal());
            out.writeByte(bytes == null ? NUMBERS : bytes.valueForm().ordinal());
        } catch (IOException e) {
            hasEnded = true;
            throw e;
        }
    }

    private DataOutputStream append() throws IOException {
        return new DataOutputStream(new BufferedOutputStream(
                Files.newOutputStream(file, StandardOpenOption.CREATE, StandardOpenOption.APPEND)));
    }

    // With the lock of the stripe held.

    /** Notes that a key was given a number. */
    void name(Node node) {
        if (hasNumbers) {
            named.add(node);
        }
    }

    /** Takes the events of the present generation, and ends it. False: it can't be ended now, and nothing was taken. */
    boolean endGeneration(Desk desk) {
        Generation generation = new Generation(named, eventsOf(desk), false);
        List<Node> next = new ArrayList<>();
        if (!desk.endGeneration()) {
            return false;
        }
        taken.add(generation);
        named = next;
        return true;
    }

    /** Takes the last events, before the desk is closed. */
    void end(Desk desk) {
        taken.add(new Generation(named, eventsOf(desk), true));
    }

    private static List<byte[]> eventsOf(Desk desk) {
        int count = desk.eventCount();
        List<byte[]> events = new ArrayList<>(count);
        for (int place = 0; place < count; place++) {
            events.add(desk.event(place));
        }
        return events;
    }

    // With the lock of the stripe free.

    /** Writes what was taken. If that fails nothing more is written, and the log says so. */
    void flush() {
        if (taken.isEmpty() || turn.isHeldByCurrentThread()) {
            return;
        }
        turn.lock();
        try {
            for (Generation next = taken.poll(); next != null; next = taken.poll()) {
                if (!isBroken) {
                    write(next);
                }
                hasEnded = next.isLast;
            }
        } catch (IOException | RuntimeException e) {
            isBroken = true;
            hasEnded = true;
            Log.warning("the events of stripe " + stripe + " are not written to " + file + " any more", e);
        } finally {
            turn.unlock();
        }
    }

    private void write(Generation generation) throws IOException {
        try (DataOutputStream out = append()) {
            for (Node node : generation.named) {
                out.writeByte(KEY);
                out.writeLong(node.id);
                out.writeUTF(Texts.of(node.key, TEXT_MAX));
            }
            out.writeByte(EVENTS);
            out.writeInt(generation.events.size());
            for (byte[] event : generation.events) {
                out.writeShort(event.length);
                out.write(event);
            }
            if (generation.isLast) {
                out.writeByte(CLOSED);
            }
        }
    }
}
