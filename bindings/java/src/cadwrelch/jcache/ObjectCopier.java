package cadwrelch.jcache;

import java.io.IOException;
import java.util.function.Supplier;
import java.util.function.UnaryOperator;
import javax.cache.CacheException;
import javax.cache.CacheManager;
import javax.cache.configuration.Factory;

/**
 * Keeps objects (JSR 107, "Store-By-Value and Store-By-Reference"): the references, or copies, but for what is {@link
 * Immutable}. Copies are made by serialization, or by what the user has given for that.
 */
final class ObjectCopier extends Copier {
    private final boolean isByValue;
    /** What copies values and keys; null: serialization does. */
    private final UnaryOperator<Object> values;
    private final UnaryOperator<Object> keys;
    /** The class loader of the cache manager. */
    private final Supplier<ClassLoader> loader;
    private final ValueStreams streams;

    /** Keeps references, or copies that are made so. */
    ObjectCopier(boolean isByValue, UnaryOperator<Object> values, UnaryOperator<Object> keys,
            Supplier<ClassLoader> loader) {
        this.isByValue = isByValue;
        this.values = values;
        this.keys = keys;
        this.loader = loader;
        streams = new ValueStreams(loader);
    }

    /**
     * What a configuration and the settings of a cache say.
     *
     * @throws CacheException if a class that is to copy can't be used, or a cache by reference is to copy
     */
    static ObjectCopier of(CadwrelchConfiguration<?, ?> configuration, Settings settings, CacheManager manager) {
        UnaryOperator<Object> values = copier(configuration.copierFactory, settings.copier, manager);
        UnaryOperator<Object> keys = copier(configuration.keyCopierFactory, settings.keyCopier, manager);
        if (!configuration.isStoreByValue() && (values != null || keys != null)) {
            throw new CacheException("a cache that stores by reference is given a copier: setStoreByValue(true) or none");
        }
        return new ObjectCopier(configuration.isStoreByValue(), values, keys, manager::getClassLoader);
    }

    @SuppressWarnings("unchecked")
    private static UnaryOperator<Object> copier(Factory<?> factory, Settings.Option named, CacheManager manager) {
        if (factory != null) {
            return (UnaryOperator<Object>) factory.create();
        }
        if (named == null) {
            return null;
        }
        try {
            Class<?> type = Class.forName(named.text, true, manager.getClassLoader());
            return (UnaryOperator<Object>) type.getConstructor().newInstance();
        } catch (ReflectiveOperationException | LinkageError | ClassCastException e) {
            throw named.refused("it has to be the name of a public class of the manager's class loader, with a"
                    + " constructor without parameters, that is a java.util.function.UnaryOperator", e);
        }
    }

    /** A value that was serialized. */
    private static final class Serialized {
        final byte[] bytes;

        Serialized(byte[] bytes) {
            this.bytes = bytes;
        }
    }

    private boolean isKeptItself(Object it) {
        return !isByValue || it == null || Immutable.is(it);
    }

    /**
     * What is kept of a value.
     *
     * @throws CacheException if it isn't serializable, and has to be; or if the user's copy of it is null
     */
    @Override
    Object in(Object value) {
        if (isKeptItself(value)) {
            return value;
        }
        return values == null ? new Serialized(serialized(value)) : copy(value, values);
    }

    @Override
    Object out(Object stored) {
        if (stored instanceof Serialized) {
            return read(((Serialized) stored).bytes);
        }
        return values == null || isKeptItself(stored) ? stored : copy(stored, values);
    }

    @Override
    Object key(Object key) {
        if (isKeptItself(key)) {
            return key;
        }
        return keys == null ? read(serialized(key)) : copy(key, keys);
    }

    private static Object copy(Object it, UnaryOperator<Object> copier) {
        Object copy = copier.apply(it);
        if (copy == null) {
            throw new CacheException("the copier " + copier.getClass().getName() + " answers null for a "
                    + it.getClass().getName());
        }
        return copy;
    }

    @Override
    Object expected(Object value) {
        return value;
    }

    @Override
    KeyLookup lookup(Object key) {
        return new KeyLookup(key, KeyLookup.hash(key), null);
    }

    private byte[] serialized(Object it) {
        try {
            return streams.write(it);
        } catch (IOException e) {
            throw new CacheException("a " + it.getClass().getName() + " can't be serialized", e);
        }
    }

    private Object read(byte[] bytes) {
        try {
            return streams.read(bytes);
        } catch (IOException | ClassNotFoundException e) {
            throw new CacheException("what was serialized can't be read back by the class loader of the cache manager, "
                    + loader.get() + "; getCacheManager(uri, classLoader) takes another one", e);
        }
    }
}
