package cadwrelch.jcache;

import java.io.Serializable;
import java.lang.reflect.Field;
import java.lang.reflect.Modifier;
import java.util.HashSet;
import java.util.Set;

/**
 * Which objects can't change, so that a cache that keeps copies keeps them themselves: those of {@linkplain
 * Copier#isPlain plain} types and of {@code java.time}, and records whose components are declared of such types.
 */
final class Immutable {
    private static final ClassValue<Boolean> KNOWN = new ClassValue<>() {
        @Override
        protected Boolean computeValue(Class<?> type) {
            return isType(type, new HashSet<>());
        }
    };

    private Immutable() {
    }

    static boolean is(Object it) {
        return Copier.isPlain(it) || KNOWN.get(it.getClass());
    }

    /** A record may have components of its own type: a type that is looked at already is no reason against it. */
    private static boolean isType(Class<?> type, Set<Class<?>> lookedAt) {
        if (type.isPrimitive() || Copier.isPlainType(type) || isTime(type) || !lookedAt.add(type)) {
            return true;
        }
        if (type.getSuperclass() == null || !type.getSuperclass().getName().equals("java.lang.Record")) {
            return false;
        }
        for (Field field : type.getDeclaredFields()) {
            if (!Modifier.isStatic(field.getModifiers()) && !isType(field.getType(), lookedAt)) {
                return false;
            }
        }
        return true;
    }

    private static boolean isTime(Class<?> type) {
        return type.getName().startsWith("java.time.") && type.getClassLoader() == null
                && Modifier.isFinal(type.getModifiers()) && Serializable.class.isAssignableFrom(type);
    }
}
