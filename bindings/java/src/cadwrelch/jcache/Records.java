package cadwrelch.jcache;

import java.io.BufferedInputStream;
import java.io.DataInputStream;
import java.io.EOFException;
import java.io.IOException;
import java.io.PrintStream;
import java.nio.charset.StandardCharsets;
import java.nio.file.Files;
import java.nio.file.Path;
import java.util.List;
import java.util.stream.Collectors;
import java.util.stream.Stream;

/**
 * Prints what was recorded by the property {@code cadwrelch.record}: each event of each stripe, in its order, as
 * the lines of a script and its transcript. A value is the number by which the core knows it, as {@code #7}, if the
 * core doesn't have its bytes.
 *
 * <p>Usage: {@code java -cp cadwrelch-jcache.jar:cache-api.jar cadwrelch.jcache.Records FOLDER [KEY]}. With a key, as its
 * {@code toString} has it, its events alone, of the files that have any.
 */
public final class Records {
    private static final int WRONG_USAGE = 2;
    private static final int NOT_PRINTED = 3;

    /** The keys of an opening that the core knows by numbers. */
    private EventTexts.OfNumbers named = new EventTexts.OfNumbers();
    private Event.Texts texts = named;
    private final PrintStream out;
    private final String only;
    /** The lines that are printed only once an event follows; null if none has to be waited for. */
    private StringBuilder held;
    private int stripe;
    private int generation;

    private Records(PrintStream out, String only) {
        this.out = out;
        this.only = only;
        this.held = only == null ? null : new StringBuilder();
    }

    /**
     * Prints the records of a folder. The exit status is 2 if the words are wrong, and 3 if a record can't be read, or
     * what is printed can't be written.
     *
     * @param words the folder, and perhaps a key
     */
    public static void main(String[] words) {
        if (words.length < 1 || words.length > 2) {
            System.err.println("usage: Records FOLDER [KEY]");
            System.exit(WRONG_USAGE);
        }
        PrintStream out = new PrintStream(System.out, false, StandardCharsets.UTF_8);
        try {
            print(Path.of(words[0]), words.length == 2 ? words[1] : null, out);
        } catch (IOException e) {
            out.flush();
            System.err.println("Records: " + e);
            System.exit(NOT_PRINTED);
        }
        if (out.checkError()) {
            System.err.println("Records: what was read can't be written");
            System.exit(NOT_PRINTED);
        }
    }

    /** Prints the records of a folder, of one key or, if it is null, of all. */
    static void print(Path folder, String key, PrintStream out) throws IOException {
        List<Path> files;
        try (Stream<Path> all = Files.list(folder)) {
            files = all.filter(file -> file.toString().endsWith(Recorder.FILE_END)).sorted()
                    .collect(Collectors.toList());
        }
        for (Path file : files) {
            new Records(out, key).print(file);
        }
    }

    private void print(Path file) throws IOException {
        note("# " + file.getFileName());
        try (DataInputStream in = new DataInputStream(new BufferedInputStream(Files.newInputStream(file)))) {
            for (int part = in.read(); part >= 0; part = in.read()) {
                print(part, in);
            }
        } catch (EOFException e) {
            note("# cut");
        }
    }

    private void print(int part, DataInputStream in) throws IOException {
        switch (part) {
            case Recorder.OPENED:
                open(in);
                break;
            case Recorder.KEY:
                named.name(in.readLong(), in.readUTF());
                break;
            case Recorder.EVENTS:
                printEvents(in);
                break;
            case Recorder.CLOSED:
                note("# closed");
                break;
            default:
                throw new IOException("there is no part " + part + " of a record");
        }
    }

    private void open(DataInputStream in) throws IOException {
        stripe = in.readInt();
        generation = 0;
        int keys = in.readByte();
        int values = in.readByte();
        named = new EventTexts.OfNumbers();
        boolean hasNumbers = keys == Recorder.NUMBERS;
        texts = hasNumbers ? named : new EventTexts.OfBytes(ByteForm.values()[keys], ByteForm.values()[values]);
        note("# opened");
    }

    private void printEvents(DataInputStream in) throws IOException {
        int count = in.readInt();
        String header = "# generation " + generation++ + "\n";
        for (int place = 0; place < count; place++) {
            byte[] bytes = new byte[in.readUnsignedShort()];
            in.readFully(bytes);
            Event event = new Event(bytes, texts);
            if (only == null || only.equals(event.key)) {
                printHeld();
                out.print(header + event.lines(stripe, place));
                header = "";
            }
        }
    }

    /** Prints a line that says where in the record it is. */
    private void note(String line) {
        if (held == null) {
            out.println(line);
        } else {
            held.append(line).append(System.lineSeparator());
        }
    }

    private void printHeld() {
        if (held != null) {
            out.print(held);
            held = null;
        }
    }
}
