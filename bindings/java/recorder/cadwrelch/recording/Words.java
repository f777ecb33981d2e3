package cadwrelch.recording;

import java.nio.charset.StandardCharsets;
import java.util.Collection;
import java.util.Map;
import java.util.concurrent.ConcurrentHashMap;
import java.util.concurrent.atomic.AtomicLong;
import java.util.function.Function;
import java.util.stream.Collectors;

/** How keys, values and names are spelled in a record: two that differ have different words. */
final class Words {
    /** How long the word of a key and that of a value may be in a record. */
    private static final int KEY_MAX = 32;
    private static final int VALUE_MAX = 256;
    /** How much of a longer one is shown before its number. */
    private static final int SHOWN = 20;

    private final Function<Object, String> texts;
    /** The words that stand for longer ones. */
    private final Map<String, String> shortened = new ConcurrentHashMap<>();
    private final AtomicLong count = new AtomicLong();

    Words(Function<Object, String> texts) {
        this.texts = texts;
    }

    /** The word of a key. */
    String key(Object key) {
        String word = spelled(texts.apply(key));
        return word.isEmpty() ? ".." : within(KEY_MAX, word);
    }

    /** The word of a value, or of null. */
    String value(Object value) {
        if (value == null) {
            return "-";
        }
        String word = spelled(texts.apply(value));
        return word.isEmpty() ? "~" : within(VALUE_MAX, word);
    }

    /** A pair of words. */
    String pair(Object key, Object value) {
        return key(key) + "=" + value(value);
    }

    /** The words of keys. */
    String keys(Collection<?> keys) {
        return keys.stream().map(this::key).collect(Collectors.joining(" "));
    }

    /** The pairs of a map. */
    String pairs(Map<?, ?> map) {
        return map.entrySet().stream().map(entry -> pair(entry.getKey(), entry.getValue()))
                .collect(Collectors.joining(" "));
    }

    /** A word, or the beginning of a longer one, with a number. No other word has two dots. */
    private String within(int most, String word) {
        return word.length() <= most ? word
                : shortened.computeIfAbsent(word, any -> word.substring(0, SHOWN) + ".." + count.incrementAndGet());
    }

    /** A text as a word: letters, digits and _ as they are, other bytes as a dot and two digits. */
    static String spelled(String text) {
        StringBuilder out = new StringBuilder();
        for (byte one : text.getBytes(StandardCharsets.UTF_8)) {
            if (one >= '0' && one <= '9' || one >= 'A' && one <= 'Z' || one >= 'a' && one <= 'z' || one == '_') {
                out.append((char) one);
            } else {
                out.append(String.format(".%02X", one));
            }
        }
        return out.toString();
    }
}
