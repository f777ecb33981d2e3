package cadwrelch.jcache;

/** {@code unwrap} of the types of JSR 107. */
final class Unwrap {
    private Unwrap() {
    }

    /**
     * The object as this type.
     *
     * @throws IllegalArgumentException if it isn't of this type
     */
    static <T> T as(Object it, Class<T> type) {
        if (type.isInstance(it)) {
            return type.cast(it);
        }
        throw new IllegalArgumentException(it.getClass().getName() + " is not a " + type.getName());
    }
}
