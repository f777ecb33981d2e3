package cadwrelch.fleet;

import java.util.LinkedHashSet;
import java.util.Set;

/**
 * What an engine has announced: keys whose rows were changed, or that any may have been.
 *
 * @param <K> the type of the keys
 */
public final class Told<K> {
    private final Set<K> keys = new LinkedHashSet<>();
    private boolean isEverything;

    /** Nothing so far. */
    public Told() {
    }

    /**
     * Adds a key.
     *
     * @param key whose row was changed
     */
    public void add(K key) {
        keys.add(key);
    }

    /** Any key may have been changed. */
    public void addEverything() {
        isEverything = true;
    }

    /**
     * The keys that were added.
     *
     * @return in their order, each once; of no use if it is everything
     */
    public Set<K> keys() {
        return keys;
    }

    /**
     * Whether any key may have been changed.
     *
     * @return true if it was said so
     */
    public boolean isEverything() {
        return isEverything;
    }
}
