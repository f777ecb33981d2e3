package cadwrelch.jcache;

import java.io.IOException;
import java.io.InputStream;
import java.nio.file.Files;
import java.nio.file.Path;
import java.nio.file.StandardCopyOption;
import java.util.Locale;
import java.util.stream.Collectors;
import java.util.stream.Stream;
import javax.cache.CacheException;

/**
 * Loads the library of the core, once. It is in the jar, from where it is copied to a temporary file that only its
 * owner can read; or it is the one that the property {@value #PROPERTY} names.
 */
final class NativeLibrary {
    /** The path of the library, if it isn't the jar's. */
    static final String PROPERTY = "cadwrelch.library";

    private static final String FILE = "libcadwrelch_jni.so";

    private static boolean isLoaded;

    private NativeLibrary() {
    }

    /**
     * Loads the library, if none is loaded.
     *
     * @param path where it is; null: it is the jar's
     * @throws UnsupportedOperationException if the jar has none for this platform
     * @throws CacheException if it can't be loaded
     */
    static synchronized void require(String path) {
        if (isLoaded) {
            return;
        }
        try {
            if (path != null) {
                System.load(Path.of(path).toAbsolutePath().toString());
            } else {
                loadFromJar();
            }
        } catch (UnsatisfiedLinkError e) {
            String which = path == null ? "of the jar" : path + ", which " + PROPERTY + " names,";
            throw new CacheException("the native library " + which + " can't be loaded", e);
        }
        isLoaded = true;
    }

    private static void loadFromJar() {
        String platform = platform();
        try (InputStream library = NativeLibrary.class.getResourceAsStream(resource(platform))) {
            if (library == null) {
                throw new UnsupportedOperationException("cadwrelch.jcache has no native library for " + platform
                        + ", but for " + platformsOfJar() + "; the property " + PROPERTY + " may name the path of one");
            }
            Path copy = Files.createTempFile("cadwrelch", ".so");
            try {
                Files.copy(library, copy, StandardCopyOption.REPLACE_EXISTING);
                System.load(copy.toString());
            } finally {
                Files.deleteIfExists(copy);
            }
        } catch (IOException e) {
            throw new CacheException("the native library can't be copied to a temporary file", e);
        }
    }

    private static String resource(String platform) {
        return "/META-INF/native/" + platform + "/" + FILE;
    }

    private static String platformsOfJar() {
        return Stream.of("linux-x86_64", "linux-aarch64")
                .filter(platform -> NativeLibrary.class.getResource(resource(platform)) != null)
                .collect(Collectors.joining(" and "));
    }

    /** The name of this platform, as {@code linux-x86_64}. */
    private static String platform() {
        String system = System.getProperty("os.name").toLowerCase(Locale.ROOT).replace(" ", "");
        String architecture = System.getProperty("os.arch");
        return system + "-" + (architecture.equals("amd64") ? "x86_64" : architecture);
    }
}
