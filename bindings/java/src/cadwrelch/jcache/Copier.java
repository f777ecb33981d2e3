package cadwrelch.jcache;

import java.lang.reflect.Modifier;
import java.math.BigDecimal;
import java.math.BigInteger;
import java.util.Set;
import java.util.UUID;

/** What is kept of keys and values, and what is handed out. It is called with no lock held. */
abstract class Copier {
    private static final Set<Class<?>> IMMUTABLE = Set.of(String.class, Boolean.class, Byte.class, Character.class,
            Short.class, Integer.class, Long.class, Float.class, Double.class, BigInteger.class, BigDecimal.class,
            UUID.class);

    /** Whether it is of an immutable type of the platform's own, whose {@code equals} calls nothing of the user's. */
    static boolean isPlain(Object it) {
        Class<?> type = it.getClass();
        return type == String.class || type == Integer.class || type == Long.class || IMMUTABLE.contains(type)
                || it instanceof Enum;
    }

    /** Whether all objects that are declared of this type are {@linkplain #isPlain plain}. */
    static boolean isPlainType(Class<?> type) {
        return IMMUTABLE.contains(type) && Modifier.isFinal(type.getModifiers()) || type.isEnum();
    }

    /** What is kept of a value; null of null. */
    abstract Object in(Object value);

    /** What is handed out of a value that is kept; null of null. */
    abstract Object out(Object stored);

    /** A key to keep, or to hand out. */
    abstract Object key(Object key);

    /** What a cached value is compared with, of the value that a call expects; null of null. */
    abstract Object expected(Object value);

    /** A key, to be looked up. */
    abstract KeyLookup lookup(Object key);
}
