package cadwrelch.jcache;

import java.util.List;

/** What messages say of keys and caches. A key's {@code toString} is the user's: no lock is held. */
final class Texts {
    private static final int KEY_MAX = 100;
    private static final int KEYS_MAX = 5;

    private Texts() {
    }

    /** A key in one line, cut. One whose {@code toString} throws is called by its type. */
    static String of(Object key, int most) {
        String text;
        try {
            text = String.valueOf(key).replace('\n', ' ');
        } catch (RuntimeException e) {
            text = key.getClass().getName();
        }
        return text.length() <= most ? text : text.substring(0, most);
    }

    /** The end of a message: the cache and the key of which it speaks. */
    static String at(String cache, Object key) {
        String text = of(key, KEY_MAX + 1);
        return " (key " + (text.length() <= KEY_MAX ? text : text.substring(0, KEY_MAX) + "..") + ", cache " + cache + ")";
    }

    /** The same of the keys of some calls. */
    static String at(String cache, List<Call> calls) {
        if (calls.size() == 1) {
            return at(cache, calls.get(0).key());
        }
        StringBuilder text = new StringBuilder(" (").append(calls.size()).append(" keys: ");
        for (Call call : calls.subList(0, Math.min(KEYS_MAX, calls.size()))) {
            text.append(of(call.key(), KEY_MAX)).append(", ");
        }
        return text.append(calls.size() > KEYS_MAX ? ".., " : "").append("cache ").append(cache).append(')').toString();
    }
}
