package cadwrelch.recording;

import java.io.IOException;
import java.util.ArrayList;
import java.util.Comparator;
import java.util.List;
import java.util.Queue;
import java.util.concurrent.ConcurrentLinkedQueue;
import java.util.concurrent.atomic.AtomicLong;
import java.util.function.LongConsumer;
import java.util.function.Supplier;

/** The lines of all threads. A thread's lines are its own; nobody else takes its lock but who writes the record. */
final class Lines {
    /** A line, with its time in nanoseconds. Its text is made once all is known; it may be two lines then. */
    private static final class Line {
        final long time;
        final String thread;
        final Supplier<String> text;

        Line(long time, String thread, Supplier<String> text) {
            this.time = time;
            this.thread = thread;
            this.text = text;
        }
    }

    /** The lines of one thread. */
    static final class Buffer {
        private final String thread;
        private final ArrayList<Line> lines = new ArrayList<>();
        /** Names for calls of this thread that are in no order with its others, for those that are over. */
        final Queue<String> spareNames = new ConcurrentLinkedQueue<>();
        /** The call that the thread makes, or null. No other thread looks at it. */
        RecordedCall call;

        Buffer(String thread) {
            this.thread = thread;
        }

        /** The name of the thread. */
        String thread() {
            return thread;
        }

        /** Notes a line of this thread, and answers its time. */
        long note(Supplier<String> text) {
            return note(thread, text);
        }

        /** Notes a line with a thread's name. The time is taken under the lock: see {@link Lines#until}. */
        synchronized long note(String name, Supplier<String> text) {
            long time = System.nanoTime();
            lines.add(new Line(time, name, text));
            return time;
        }

        private synchronized void copyTo(List<Line> all) {
            all.addAll(lines);
        }
    }

    private final Queue<Buffer> buffers = new ConcurrentLinkedQueue<>();
    private final AtomicLong threads = new AtomicLong();
    private final ThreadLocal<Buffer> mine = ThreadLocal.withInitial(() -> {
        Buffer buffer = new Buffer(newName());
        buffers.add(buffer);
        return buffer;
    });

    /** A name that no thread has. */
    String newName() {
        return "t" + threads.incrementAndGet();
    }

    /** The lines of this thread. */
    Buffer mine() {
        return mine.get();
    }

    /** Does something on this thread as a part of a call, or of none if that is null. */
    <T> T inCall(RecordedCall call, Supplier<T> work) {
        Buffer buffer = mine();
        RecordedCall former = buffer.call;
        buffer.call = call;
        try {
            return work.get();
        } finally {
            buffer.call = former;
        }
    }

    /**
     * All lines up to a time, in its order. A line that isn't in its thread's list yet has a later time, since that is
     * taken under the list's lock: so no line is missing that another one here rests on.
     */
    private List<Line> until(long end) {
        List<Line> all = new ArrayList<>();
        buffers.forEach(buffer -> buffer.copyTo(all));
        all.removeIf(line -> line.time > end);
        all.sort(Comparator.comparingLong(line -> line.time));
        return all;
    }

    /** Writes all lines, with times since the first one, once what their texts need is resolved as of a time. */
    void writeTo(Appendable out, LongConsumer resolve) throws IOException {
        long end = System.nanoTime();
        List<Line> all = until(end);
        resolve.accept(end);
        long first = all.isEmpty() ? 0 : all.get(0).time;
        for (Line line : all) {
            String before = "@" + (line.time - first) + " " + line.thread + " ";
            out.append(before + line.text.get().replace("\n", "\n" + before) + "\n");
        }
    }
}
