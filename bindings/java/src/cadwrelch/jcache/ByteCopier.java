package cadwrelch.jcache;

import javax.cache.configuration.Configuration;

/** Keeps the bytes of keys and values whose equality is that of their bytes: of strings, integers, longs and UUIDs. */
final class ByteCopier extends Copier {
    private final ByteForm keys;
    private final ByteForm values;

    private ByteCopier(ByteForm keys, ByteForm values) {
        this.keys = keys;
        this.values = values;
    }

    /** The copier of a cache of these types; null: they are others. */
    static ByteCopier of(Configuration<?, ?> configuration) {
        ByteForm keys = ByteForm.of(configuration.getKeyType());
        ByteForm values = ByteForm.of(configuration.getValueType());
        return keys == null || values == null ? null : new ByteCopier(keys, values);
    }

    /**
     * The bytes of a value.
     *
     * @throws IllegalArgumentException if they are too many
     */
    @Override
    Object in(Object value) {
        if (value == null) {
            return null;
        }
        byte[] bytes = values.toBytes(value);
        if (bytes.length > Native.VALUE_MAX) {
            throw new IllegalArgumentException("a value of " + bytes.length + " bytes: with " + Settings.BYTES
                    + " a value has 0 to " + Native.VALUE_MAX);
        }
        return bytes;
    }

    @Override
    Object out(Object stored) {
        return stored == null ? null : values.fromBytes((byte[]) stored);
    }

    /** Keys are of immutable types. */
    @Override
    Object key(Object key) {
        return key;
    }

    @Override
    Object expected(Object value) {
        return in(value);
    }

    /**
     * A key with its bytes.
     *
     * @throws IllegalArgumentException if they are too few or too many
     */
    @Override
    KeyLookup lookup(Object key) {
        byte[] bytes = keys.toBytes(key);
        if (bytes.length == 0 || bytes.length > Native.KEY_MAX) {
            throw new IllegalArgumentException("a key of " + bytes.length + " bytes: with " + Settings.BYTES
                    + " a key has 1 to " + Native.KEY_MAX);
        }
        return new KeyLookup(key, KeyLookup.hash(key), bytes);
    }

    /** The key that has these bytes. */
    Object keyOf(byte[] bytes) {
        return keys.fromBytes(bytes);
    }

    ByteForm keyForm() {
        return keys;
    }

    ByteForm valueForm() {
        return values;
    }
}
