package cadwrelch.jcache;

import java.time.Duration;
import java.util.ArrayList;
import java.util.HashMap;
import java.util.List;
import java.util.Map;
import java.util.Properties;
import java.util.Set;
import java.util.TreeSet;
import java.util.regex.Matcher;
import java.util.regex.Pattern;
import javax.cache.CacheException;

/**
 * How a cache is made, by the provider's own properties. {@code cadwrelch.NAME.capacity} is that of the cache NAME, and
 * {@code cadwrelch.capacity} of all others; those of the manager come before system properties of the same name.
 */
final class Settings {
    private static final String PREFIX = "cadwrelch.";
    private static final String STRIPES = "stripes";
    private static final String CAPACITY = "capacity";
    private static final String HISTORY = "history";
    private static final String REFRESH_AFTER = "refresh_after";
    private static final String ABSENT_FOR = "absent_for";
    private static final String COPIER = "copier";
    private static final String KEY_COPIER = "key_copier";
    /** Whether the core has the bytes of keys and values, in caches whose types have some: true or false. */
    private static final String BYTES_OPTION = "bytes";
    static final String BYTES = PREFIX + BYTES_OPTION;
    /** The folder into which the events of all stripes are written; none: they aren't. */
    private static final String RECORD = "record";
    /** What may be set for each cache. */
    private static final Set<String> OPTIONS = new TreeSet<>(Set.of(STRIPES, CAPACITY, HISTORY, REFRESH_AFTER,
            ABSENT_FOR, COPIER, KEY_COPIER, BYTES_OPTION, RECORD));

    static final int STRIPES_MAX = 4096;
    private static final int STRIPES_USUAL = 16;
    /** How many entries a stripe of the core has room for at most. */
    private static final int STRIPE_CAPACITY_MAX = 4096;
    /** A cache gets a second stripe when each can have so many: hashes fill stripes unevenly. */
    private static final int STRIPE_CAPACITY_USUAL = 256;
    static final int CAPACITY_MAX = STRIPES_MAX * STRIPE_CAPACITY_MAX;
    private static final int CAPACITY_DEFAULT = STRIPES_USUAL * STRIPE_CAPACITY_MAX;
    static final int HISTORY_MIN = 16;
    static final int HISTORY_MAX = 65536;
    /**
     * Room for as many calls as can be under way: 64 have reserved a key, of three events each, and 64 have joined a
     * load.
     */
    private static final int HISTORY_DEFAULT = 260;
    private static final Pattern TIME = Pattern.compile("([0-9]{1,9}) ?(ms|s|m|h|d)");
    private static final Map<String, Duration> UNITS = Map.of("ms", Duration.ofMillis(1), "s", Duration.ofSeconds(1),
            "m", Duration.ofMinutes(1), "h", Duration.ofHours(1), "d", Duration.ofDays(1));

    final int stripes;
    /** Of the whole cache. */
    final int capacity;
    final int history;
    final boolean bytes;
    /** Null: events aren't written. */
    final Option record;
    /** After how many nanoseconds an entry is loaded again, and for how many a missing one is known; 0: never. */
    final long refreshAfter;
    final long absentFor;
    /** The names of classes that copy values and keys, as they are set, or null. */
    final Option copier;
    final Option keyCopier;
    private final List<Map<String, String>> sources;
    private final String cacheName;

    /** What a property, or a configuration, sets. */
    static final class Option {
        /** What has set it, as messages name it. */
        final String name;
        final String text;

        Option(String name, String text) {
            this.name = name;
            this.text = text;
        }

        CacheException refused(String limits) {
            return refused(limits, null);
        }

        CacheException refused(String limits, Throwable cause) {
            return new CacheException(name + " is '" + text + "': " + limits, cause);
        }
    }

    /**
     * The settings of a cache.
     *
     * @param properties the manager's, checked
     * @param cacheName null: of those caches that have no properties of their own
     * @param configuration what comes before all properties; null: nothing does
     * @throws CacheException if a value is out of its limits; the text names it, and them
     */
    Settings(Map<String, String> properties, String cacheName, CadwrelchConfiguration<?, ?> configuration) {
        this.sources = List.of(properties, ofSystem());
        this.cacheName = cacheName;
        CadwrelchConfiguration<?, ?> own = configuration == null ? new CadwrelchConfiguration<>() : configuration;
        history = own.history != 0 ? own.history : number(HISTORY, HISTORY_DEFAULT, HISTORY_MIN, HISTORY_MAX);
        Option striped = own.stripes != 0 ? ofConfiguration(STRIPES, own.stripes) : find(STRIPES);
        int given = striped == null ? 0 : within(striped, 1, STRIPES_MAX, "");
        Option sized = own.capacity != 0 ? ofConfiguration(CAPACITY, own.capacity) : find(CAPACITY);
        capacity = sized == null ? defaultCapacity(given) : capacity(sized, given);
        stripes = given != 0 ? given : stripesFor(capacity);
        bytes = flag(find(BYTES_OPTION));
        record = find(RECORD);
        refreshAfter = own.refreshAfter != null ? nanos(own.refreshAfter) : time(find(REFRESH_AFTER));
        absentFor = own.absentFor != null ? nanos(own.absentFor) : time(find(ABSENT_FOR));
        copier = own.copierFactory != null ? null : find(COPIER);
        keyCopier = own.keyCopierFactory != null ? null : find(KEY_COPIER);
    }

    /** How many entries a stripe has room for: all stripes have as many as the cache, and differ by at most one. */
    int capacityOf(int stripe) {
        return capacity / stripes + (stripe < capacity % stripes ? 1 : 0);
    }

    // The properties of a manager.

    /**
     * The properties of a manager that are the provider's own.
     *
     * @throws CacheException if one is unknown, isn't a String, or is out of its limits
     */
    static Map<String, String> of(Properties properties) {
        properties.forEach(Settings::check);
        Map<String, String> own = new HashMap<>();
        for (String name : properties.stringPropertyNames()) {
            if (name.startsWith(PREFIX)) {
                check(name, properties.getProperty(name));
                own.put(name, properties.getProperty(name));
            }
        }
        System.getProperties().forEach(Settings::check);
        new Settings(own, null, null);
        cacheNames(own).forEach(cache -> new Settings(own, cache, null));
        return own;
    }

    /** The caches that have properties of their own. */
    static Set<String> cacheNames(Map<String, String> properties) {
        Set<String> names = new TreeSet<>();
        for (String name : properties.keySet()) {
            int end = name.lastIndexOf('.');
            if (end >= PREFIX.length() && OPTIONS.contains(name.substring(end + 1))) {
                names.add(name.substring(PREFIX.length(), end));
            }
        }
        return names;
    }

    /** The path of the native library; null: the jar's. */
    static String library(Map<String, String> properties) {
        return properties.getOrDefault(NativeLibrary.PROPERTY, System.getProperty(NativeLibrary.PROPERTY));
    }

    /** Checks a property that is set, if it is the provider's own. {@code getProperty} sees none but Strings. */
    private static void check(Object key, Object value) {
        String name = key.toString();
        if (!name.startsWith(PREFIX)) {
            return;
        }
        if (!name.equals(NativeLibrary.PROPERTY) && !OPTIONS.contains(name.substring(name.lastIndexOf('.') + 1))) {
            throw new CacheException("there is no property " + name + "; there are " + NativeLibrary.PROPERTY
                    + ", and, of all caches or with a cache's name, as " + PREFIX + "NAME." + CAPACITY + ": " + PREFIX
                    + String.join(", " + PREFIX, OPTIONS));
        }
        if (!(key instanceof String && value instanceof String)) {
            throw new CacheException("the property " + name + " is '" + value + "', a " + value.getClass().getName()
                    + ": it has to be a String");
        }
    }

    /**
     * The default properties: those that system properties of the same names set, and the provider's, but for the
     * capacity and the stripes, of which each goes by the other.
     */
    static Properties defaults() {
        Settings made = new Settings(Map.of(), null, null);
        Properties defaults = new Properties();
        defaults.setProperty(PREFIX + HISTORY, Integer.toString(made.history));
        defaults.setProperty(BYTES, Boolean.toString(made.bytes));
        defaults.putAll(ofSystem());
        return defaults;
    }

    private static Map<String, String> ofSystem() {
        Map<String, String> own = new HashMap<>();
        for (String name : System.getProperties().stringPropertyNames()) {
            if (name.startsWith(PREFIX)) {
                own.put(name, System.getProperty(name));
            }
        }
        return own;
    }

    // Values.

    /** What sets an option: first the cache's own properties; null: nothing does. */
    private Option find(String option) {
        List<String> names = new ArrayList<>();
        if (cacheName != null) {
            names.add(PREFIX + cacheName + "." + option);
        }
        names.add(PREFIX + option);
        for (String name : names) {
            for (Map<String, String> source : sources) {
                if (source.containsKey(name)) {
                    return new Option("the property " + name, source.get(name).trim());
                }
            }
        }
        return null;
    }

    private static Option ofConfiguration(String option, int given) {
        return new Option(option + " of the configuration", Integer.toString(given));
    }

    private static int defaultCapacity(int stripes) {
        return stripes == 0 ? CAPACITY_DEFAULT : Math.max(stripes, Math.min(CAPACITY_DEFAULT, stripes * STRIPE_CAPACITY_MAX));
    }

    private static int capacity(Option sized, int stripes) {
        return stripes == 0 ? within(sized, 1, CAPACITY_MAX, "")
                : within(sized, stripes, stripes * STRIPE_CAPACITY_MAX, " with " + stripes + " stripes");
    }

    private static int stripesFor(int capacity) {
        int roomy = Math.min(STRIPES_USUAL, Math.max(1, capacity / STRIPE_CAPACITY_USUAL));
        return Math.max(roomy, (capacity + STRIPE_CAPACITY_MAX - 1) / STRIPE_CAPACITY_MAX);
    }

    private int number(String option, int otherwise, int least, int most) {
        Option set = find(option);
        return set == null ? otherwise : within(set, least, most, "");
    }

    private static int within(Option set, int least, int most, String condition) {
        try {
            int number = Integer.parseInt(set.text);
            if (number >= least && number <= most) {
                return number;
            }
        } catch (NumberFormatException e) {
            // It is refused below.
        }
        throw set.refused("it has to be a number from " + least + " to " + most + condition);
    }

    private static boolean flag(Option set) {
        if (set != null && !set.text.equals("true") && !set.text.equals("false")) {
            throw set.refused("it has to be true or false");
        }
        return set != null && set.text.equals("true");
    }

    private static long time(Option set) {
        if (set == null) {
            return 0;
        }
        Matcher words = TIME.matcher(set.text);
        if (!words.matches() || Integer.parseInt(words.group(1)) == 0) {
            throw set.refused("it has to be a number from 1 to 999999999 and its unit, one of ms, s, m, h and d, as 30s");
        }
        return nanos(UNITS.get(words.group(2)).multipliedBy(Long.parseLong(words.group(1))));
    }

    /** The nanoseconds of a time: at most as many as a clock can count. */
    private static long nanos(Duration time) {
        Duration most = Duration.ofNanos(Long.MAX_VALUE / 2);
        return time.compareTo(most) < 0 ? time.toNanos() : most.toNanos();
    }
}
