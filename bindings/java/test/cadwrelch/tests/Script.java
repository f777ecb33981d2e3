package cadwrelch.tests;

import java.io.IOException;
import java.nio.charset.StandardCharsets;
import java.nio.file.DirectoryStream;
import java.nio.file.Files;
import java.nio.file.Path;
import java.util.ArrayList;
import java.util.List;
import java.util.Set;
import java.util.TreeMap;
import java.util.regex.Pattern;

/** A script of examples/, or a case of tests/cases, with its transcript. */
final class Script {
    /** The words of calls of many keys. */
    private static final Set<String> BULK =
            Set.of("getall", "putall", "removeall", "removeevery", "clear", "loadall", "invokeall");
    /**
     * Lines for which a provider has no call: what gives a call up, retries it, opens a cache again, or names untold keys; and
     * what forgets a key, since a provider does that by marks of its own, and prints no eviction.
     */
    private static final Set<String> INSIDE = Set.of("drop", "more", "reopen", "untold", "invalidate");
    /**
     * A processor that creates an entry and removes it: by JCache's reference implementation nothing happens, here it
     * is a delete.
     */
    private static final Pattern UNDONE = Pattern.compile("(?m)^process .*set=.* remove");

    /** Where it stands, and its first line. */
    final String name;
    final String text;
    final List<String> transcript;

    private Script(String name, String text, String transcript) {
        this.name = name;
        this.text = text;
        this.transcript = List.of(transcript.split("\n"));
    }

    /** Its lines, each as its words. */
    List<String[]> lines() {
        List<String[]> lines = new ArrayList<>();
        for (String line : text.split("\n")) {
            if (!line.isEmpty() && !line.startsWith("#")) {
                lines.add(line.split(" "));
            }
        }
        return lines;
    }

    /**
     * Whether a provider can play it: one stripe, calls of one key, and no fault. A call that is refused is none of
     * these: a provider lets it wait.
     */
    boolean isPlayable() {
        return text.contains("open 1 ")
                && lines().stream().noneMatch(Script::isForNoProvider)
                && transcript.stream().noneMatch(line -> line.startsWith("line ") || line.contains(" refused "))
                && !UNDONE.matcher(text).find();
    }

    private static boolean isForNoProvider(String[] line) {
        return INSIDE.contains(line[0]) || line[0].equals("begin") && (BULK.contains(line[3]) || line[3].equals("forget"));
    }

    /** All scripts of examples/ and the cases of tests/cases, by their files' names. */
    static List<Script> all(Path repository) throws IOException {
        Path examples = repository.resolve("examples");
        List<Script> all = new ArrayList<>();
        files(examples, "*.script").forEach((name, text) ->
                all.add(new Script(name, text, read(examples.resolve(name.replace(".script", ".transcript"))))));
        files(repository.resolve("tests/cases"), "*.cases").forEach((name, text) -> {
            for (String one : text.split("(?m)^==\n")) {
                String[] parts = one.split("(?m)^--\n", 2);
                if (parts.length == 2) {
                    all.add(new Script(name + ": " + parts[0].lines().findFirst().orElse(""), parts[0], parts[1]));
                }
            }
        });
        return all;
    }

    private static TreeMap<String, String> files(Path folder, String pattern) throws IOException {
        TreeMap<String, String> texts = new TreeMap<>();
        try (DirectoryStream<Path> files = Files.newDirectoryStream(folder, pattern)) {
            files.forEach(file -> texts.put(file.getFileName().toString(), read(file)));
        }
        return texts;
    }

    private static String read(Path file) {
        try {
            return new String(Files.readAllBytes(file), StandardCharsets.UTF_8);
        } catch (IOException e) {
            throw new AssertionError(e);
        }
    }
}
