package cadwrelch.jcache;

import java.nio.ByteBuffer;
import java.util.HashMap;
import java.util.Map;

/** What the keys and values of a record's events are called. */
final class EventTexts {
    private EventTexts() {
    }

    /** Keys are named by the record; a value is the number by which the core knows it, as {@code #7}. */
    static final class OfNumbers implements Event.Texts {
        private final Map<Long, String> keys = new HashMap<>();

        void name(long number, String text) {
            keys.put(number, text);
        }

        @Override
        public String key(long number, ByteBuffer bytes) {
            return keys.getOrDefault(number, "?");
        }

        @Override
        public String value(long number, ByteBuffer bytes) {
            return number == 0 ? null : "#" + number;
        }
    }

    /** Keys and values are what their bytes are; an empty text is {@code ~}. */
    static final class OfBytes implements Event.Texts {
        private final ByteForm keys;
        private final ByteForm values;

        OfBytes(ByteForm keys, ByteForm values) {
            this.keys = keys;
            this.values = values;
        }

        @Override
        public String key(long length, ByteBuffer bytes) {
            return text(keys, length, bytes);
        }

        @Override
        public String value(long length, ByteBuffer bytes) {
            return length == Native.NO_BYTES ? null : text(values, length, bytes);
        }

        private static String text(ByteForm form, long length, ByteBuffer bytes) {
            byte[] own = new byte[(int) length];
            bytes.get(own);
            return length == 0 ? "~" : form.fromBytes(own).toString().replace('\n', ' ');
        }
    }
}
