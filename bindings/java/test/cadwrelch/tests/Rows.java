package cadwrelch.tests;

import static cadwrelch.tests.Check.equal;
import static cadwrelch.tests.Check.holds;

import java.io.IOException;
import java.nio.charset.StandardCharsets;
import java.nio.file.Files;
import java.nio.file.Path;
import java.util.ArrayList;
import java.util.List;
import java.util.stream.Collectors;
import cadwrelch.tests.Check.Test;

/**
 * The scripts of examples/ and cases of tests/cases that a provider can play, through the provider, beside the program
 * that plays scripts: each call replies the same, asks the same, and leaves the same. The property
 * {@code jcache.repository} is the folder that has both, {@code jcache.program} the program.
 */
final class Rows {
    private Rows() {}

    private static final Path REPOSITORY = Path.of(System.getProperty("jcache.repository", "../.."));

    /** The transcript that the program writes of a script. */
    private static List<String> transcript(Script script) throws IOException {
        Path file = Files.createTempFile("rows", ".script");
        try {
            Files.write(file, script.text.getBytes(StandardCharsets.UTF_8));
            Process process = new ProcessBuilder(System.getProperty("jcache.program"), "run")
                    .redirectInput(file.toFile()).start();
            String text = new String(process.getInputStream().readAllBytes(), StandardCharsets.UTF_8);
            return text.lines().collect(Collectors.toList());
        } finally {
            Files.delete(file);
        }
    }

    @Test
    static void theProviderDoesWhatTheProgramDoes() throws Exception {
        List<Script> playable = new ArrayList<>(Script.all(REPOSITORY));
        playable.removeIf(script -> !script.isPlayable());
        for (Script script : playable) {
            List<String> transcript = transcript(script);
            equal("the program's transcript is that of " + script.name, script.transcript, transcript);
            try (Player player = new Player()) {
                equal(script.name, Player.seen(script, transcript), player.play(script));
            }
        }
        holds("many scripts can be played: " + playable.size(), playable.size() > 70);
    }
}
