package cadwrelch.jcache;

import java.nio.ByteBuffer;
import java.nio.charset.StandardCharsets;
import java.util.UUID;

/** How the keys or values of a type are bytes. Two are equal if their bytes are. */
enum ByteForm {
    /** UTF-8. A string with a lone surrogate has no such bytes. */
    STRING(String.class) {
        @Override
        byte[] toBytes(Object it) {
            String text = (String) it;
            checkSurrogates(text);
            return text.getBytes(StandardCharsets.UTF_8);
        }

        @Override
        Object fromBytes(byte[] bytes) {
            return new String(bytes, StandardCharsets.UTF_8);
        }
    },
    /** Four bytes, the highest first. */
    INTEGER(Integer.class) {
        @Override
        byte[] toBytes(Object it) {
            return ByteBuffer.allocate(Integer.BYTES).putInt((Integer) it).array();
        }

        @Override
        Object fromBytes(byte[] bytes) {
            return ByteBuffer.wrap(bytes).getInt();
        }
    },
    /** Eight bytes, the highest first. */
    LONG(Long.class) {
        @Override
        byte[] toBytes(Object it) {
            return ByteBuffer.allocate(Long.BYTES).putLong((Long) it).array();
        }

        @Override
        Object fromBytes(byte[] bytes) {
            return ByteBuffer.wrap(bytes).getLong();
        }
    },
    /** Sixteen bytes, the highest first. */
    UNIQUE_ID(UUID.class) {
        @Override
        byte[] toBytes(Object it) {
            UUID id = (UUID) it;
            return ByteBuffer.allocate(2 * Long.BYTES).putLong(id.getMostSignificantBits())
                    .putLong(id.getLeastSignificantBits()).array();
        }

        @Override
        Object fromBytes(byte[] bytes) {
            ByteBuffer from = ByteBuffer.wrap(bytes);
            return new UUID(from.getLong(), from.getLong());
        }
    };

    private final Class<?> type;

    ByteForm(Class<?> type) {
        this.type = type;
    }

    /** The form of a type, or null if it has none. */
    static ByteForm of(Class<?> type) {
        for (ByteForm form : values()) {
            if (form.type == type) {
                return form;
            }
        }
        return null;
    }

    /**
     * The bytes of a key or value of this type.
     *
     * @throws IllegalArgumentException if it has none
     */
    abstract byte[] toBytes(Object it);

    /** The key or value that has these bytes. */
    abstract Object fromBytes(byte[] bytes);

    private static void checkSurrogates(String text) {
        for (int i = 0; i < text.length(); i++) {
            if (Character.isSurrogate(text.charAt(i))) {
                if (i + 1 == text.length() || !Character.isSurrogatePair(text.charAt(i), text.charAt(i + 1))) {
                    throw new IllegalArgumentException("a string with a lone surrogate has no UTF-8, which "
                            + Settings.BYTES + " wants");
                }
                i++;
            }
        }
    }
}
