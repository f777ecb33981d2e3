package cadwrelch.tests;

import static cadwrelch.tests.Check.equal;
import static cadwrelch.tests.Check.holds;
import static cadwrelch.tests.Check.thrown;

import java.io.ByteArrayOutputStream;
import java.io.File;
import java.io.IOException;
import java.io.PrintStream;
import java.nio.charset.StandardCharsets;
import java.nio.file.Files;
import java.nio.file.Path;
import java.util.Comparator;
import java.util.List;
import java.util.Properties;
import java.util.stream.Collectors;
import java.util.stream.Stream;
import javax.cache.Cache;
import javax.cache.CacheException;
import javax.cache.CacheManager;
import javax.cache.configuration.MutableConfiguration;
import cadwrelch.jcache.Records;
import cadwrelch.tests.Background.Work;
import cadwrelch.tests.Check.Test;

/** What the property {@code cadwrelch.record} keeps of a cache, and what {@link Records} prints of that. */
final class Recording {
    private Recording() {}

    /** A folder for records, and a manager whose caches of one stripe write there. */
    private static final class Scene implements AutoCloseable {
        final Path folder = Files.createTempDirectory("records");
        final Store<String, String> store = new Store<>();
        final CacheManager manager;
        final Cache<String, String> cache;

        Scene(int history) throws IOException {
            this(history, new Properties(), null);
        }

        /** With more properties, and of a configured type, if it isn't null. */
        Scene(int history, Properties properties, Class<String> type) throws IOException {
            properties.setProperty("cadwrelch.stripes", "1");
            properties.setProperty("cadwrelch.capacity", "2");
            properties.setProperty("cadwrelch.history", String.valueOf(history));
            properties.setProperty("cadwrelch.record", folder.toString());
            manager = Caches.manager(properties);
            MutableConfiguration<String, String> configuration = Caches.over(store);
            cache = manager.createCache("kept", type == null ? configuration : configuration.setTypes(type, type));
        }

        /**
         * What is printed of a key, or of all keys if it is null, but for what says which file and which generation it
         * is.
         */
        List<String> printed(String key) throws IOException {
            return all(key).stream().filter(line -> !line.startsWith("#")).collect(Collectors.toList());
        }

        /** Whether a line is printed of a key, or of all keys, that matches. */
        boolean prints(String key, String regex) throws IOException {
            return printed(key).stream().anyMatch(line -> line.matches(regex));
        }

        List<String> all(String key) throws IOException {
            PrintStream before = System.out;
            ByteArrayOutputStream bytes = new ByteArrayOutputStream();
            System.setOut(new PrintStream(bytes, true));
            try {
                Records.main(key == null ? new String[] {folder.toString()} : new String[] {folder.toString(), key});
            } finally {
                System.setOut(before);
            }
            return new String(bytes.toByteArray(), StandardCharsets.UTF_8).lines().collect(Collectors.toList());
        }

        @Override
        public void close() throws IOException {
            manager.close();
            try (Stream<Path> files = Files.walk(folder)) {
                files.sorted(Comparator.reverseOrder()).forEach(file -> file.toFile().delete());
            }
        }
    }

    @Test
    static void eachStepIsALine() throws Exception {
        try (Scene scene = new Scene(64)) {
            scene.store.map.put("a", "stored");
            scene.cache.get("a");
            scene.cache.get("a");
            scene.cache.put("b", "new");
            scene.cache.remove("a");
            scene.cache.close();
            List<String> replies = scene.printed(null).stream()
                    .filter(line -> line.contains(" is "))
                    .map(line -> line.replaceAll("^\\d+ ", "").replaceAll("#\\d+", "VALUE"))
                    .collect(Collectors.toList());
            equal("each call is a step of its stripe, in their order, with its key",
                    List.of("a is VALUE at 0.0", "a is VALUE at 0.1", "b is ok at 0.2", "a is true at 0.3"), replies);
            holds("a load says that the loader was asked", scene.prints("a", "\\d+ a says #\\d+"));
            holds("a put says that the writer has written", scene.prints("b", "\\d+ b written"));
            holds("a remove that it has deleted", scene.prints("a", "\\d+ a deleted"));
            holds("of one key its steps alone are printed", !scene.prints("a", ".* b .*"));
            holds("with the file's name", scene.all("a").contains("# kept-0.events"));
            equal("of a file without the key nothing is printed", List.of(), scene.all("c"));
        }
    }

    @Test
    static void evictionsAndFailuresAreLines() throws Exception {
        try (Scene scene = new Scene(64)) {
            scene.cache.put("a", "1");
            scene.cache.put("b", "2");
            scene.cache.put("c", "3");
            scene.store.fault = new IllegalStateException("down");
            thrown("a put fails", CacheException.class, () -> scene.cache.put("b", "4"));
            scene.cache.close();
            holds("an eviction is a line, with its key", scene.printed(null).contains("evict a full at 0.2"));
            holds("a put that failed, too", scene.prints("b", "\\d+ b is WriterFailed at 0.4"));
        }
    }

    @Test
    static void whoHasJoinedALoadSaysWhich() throws Exception {
        try (Scene scene = new Scene(64)) {
            scene.store.map.put("a", "stored");
            Store.Gate gate = scene.store.shut();
            Work<String> first = Background.start(() -> scene.cache.get("a"));
            gate.awaitCall();
            Work<String> second = Background.start(() -> scene.cache.get("a"));
            second.awaitSleep();
            scene.store.open();
            first.result();
            second.result();
            scene.cache.close();
            holds("the step of a get that has joined a load has the place of that load",
                    scene.prints("a", "\\d+ a is #\\d+ at 0.1 shared 0"));
        }
    }

    @Test
    static void allGenerationsAreKept() throws Exception {
        try (Scene scene = new Scene(16)) {
            for (int i = 0; i < 500; i++) {
                scene.cache.put("key" + i % 2, "v");
            }
            scene.cache.close();
            equal("each step of a cache whose history is short is kept", 500L,
                    scene.printed(null).stream().filter(line -> line.contains(" is ok at 0.")).count());
            long generations = scene.all(null).stream().filter(line -> line.startsWith("# generation")).count();
            holds("in generations", generations >= 500 / 16);
        }
    }

    @Test
    static void aSlowLoadHoldsNoRecordOfOthers() throws Exception {
        try (Scene scene = new Scene(260)) {
            scene.store.map.put("a", "stored");
            Store.Gate gate = scene.store.shut();
            Work<String> slow = Background.start(() -> scene.cache.get("a"));
            gate.awaitCall();
            Background.start(() -> {
                for (int i = 0; i < 2000; i++) {
                    scene.cache.containsKey("b");
                }
            }).result();
            holds("while a load is slow, generations end, and others go on", !slow.isDone());
            scene.store.open();
            slow.result();
        }
    }

    @Test
    static void bytesInTheCoreAreKeptAsTheyAre() throws Exception {
        Properties bytes = new Properties();
        bytes.setProperty("cadwrelch.bytes", "true");
        try (Scene scene = new Scene(64, bytes, String.class)) {
            scene.cache.put("a", "first");
            scene.cache.replace("a", "first", "second");
            scene.cache.close();
            equal("values that are bytes in the core are printed as they are",
                    List.of("begin 0 s1 put a first", "0 a written", "0 a is ok at 0.0",
                            "begin 1 s1 replaceif a first second", "1 a written", "1 a is true at 0.1"),
                    scene.printed("a"));
        }
    }

    @Test
    static void twoCachesNeverWriteOneRecord() throws Exception {
        try (Scene scene = new Scene(64)) {
            Path same = scene.folder.resolve("..").resolve(scene.folder.getFileName());
            CacheManager other = writingTo(same);
            for (CacheManager manager : List.of(other, writingTo(scene.folder), writingTo(scene.folder.resolve(".")))) {
                thrown("a second cache of a name with the same folder, whatever that is called, is CacheException",
                        CacheException.class, () -> manager.createCache("kept", new MutableConfiguration<>()));
            }
            scene.cache.close();
            other.createCache("kept", new MutableConfiguration<>()).close();
            holds("once the first is closed it may write, after what is there",
                    scene.all(null).stream().filter(line -> line.equals("# closed")).count() > 1);
        }
    }

    private static CacheManager writingTo(Path folder) {
        Properties properties = new Properties();
        properties.setProperty("cadwrelch.record", folder.toString());
        return Caches.manager(properties);
    }

    @Test
    static void anOutputThatFailsIsAStatus() throws Exception {
        try (Scene scene = new Scene(64)) {
            Process records = new ProcessBuilder(Path.of(System.getProperty("java.home"), "bin", "java").toString(),
                    "-cp", System.getProperty("java.class.path"), Records.class.getName(), scene.folder.toString())
                    .redirectOutput(new File("/dev/full")).redirectError(ProcessBuilder.Redirect.DISCARD).start();
            equal("Records has status 3 if what it prints can't be written", 3, records.waitFor());
        }
    }

    @Test
    static void aFolderThatCannotBeWrittenIsNamed() throws Exception {
        Path file = Files.createTempFile("records", "");
        Store<String, String> store = new Store<>();
        CacheException refused = thrown("a folder below a file is CacheException", CacheException.class,
                () -> Caches.create(writingTo(file.resolve("below")), Caches.over(store)));
        holds("whose text names the property: " + refused.getMessage(),
                refused.getMessage().contains("cadwrelch.record"));
        holds("and the store that the cache was given is closed", store.closed);
        Files.delete(file);
    }
}
