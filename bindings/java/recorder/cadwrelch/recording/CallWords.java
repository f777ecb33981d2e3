package cadwrelch.recording;

import java.util.Arrays;
import java.util.Collection;
import java.util.Map;
import java.util.Objects;
import java.util.Set;
import java.util.stream.Collectors;

/** A call in the words of a record, and its keys. */
final class CallWords {
    /** The operation with its words. */
    final String text;
    /** The words of the keys that it names; null if it names none, and is at all of them. */
    final Set<String> keys;

    private CallWords(String text, Set<String> keys) {
        this.text = text;
        this.keys = keys;
    }

    /** The words of a call of {@code Cache}, by its method's name and its arguments; null if it isn't recorded. */
    static CallWords of(Words words, String name, Object[] arguments) {
        boolean mayHaveNull = name.equals("loadAll") || name.startsWith("invoke");
        int meant = mayHaveNull ? Math.min(2, arguments.length) : arguments.length;
        // A null that it mustn't have: the call does nothing, and isn't recorded.
        boolean hasNull = hasNull(Arrays.asList(arguments).subList(0, meant));
        return hasNull ? null : arguments.length == 0 ? ofAll(name) : ofOne(words, name, arguments);
    }

    private static boolean hasNull(Collection<?> all) {
        return all.stream().anyMatch(Objects::isNull);
    }

    private static CallWords ofAll(String name) {
        switch (name) {
            case "removeAll":
                return new CallWords("removeevery", null);
            case "clear":
                return new CallWords("clear", null);
            default:
                return null;
        }
    }

    private static CallWords ofOne(Words words, String name, Object[] arguments) {
        int count = arguments.length;
        switch (name) {
            case "get":
            case "put":
                return at(words, name, arguments, count);
            case "containsKey":
                return at(words, "contains", arguments, 1);
            case "getAndPut":
                return at(words, "getput", arguments, count);
            case "putIfAbsent":
                return at(words, "putif", arguments, count);
            case "getAndRemove":
                return at(words, "getremove", arguments, count);
            case "getAndReplace":
                return at(words, "getreplace", arguments, count);
            case "remove":
                return at(words, count == 1 ? "remove" : "removeif", arguments, count);
            case "replace":
                return at(words, count == 2 ? "replace" : "replaceif", arguments, count);
            case "invoke":
                return at(words, "invoke", arguments, 1);
            default:
                return ofMany(words, name, arguments);
        }
    }

    private static CallWords ofMany(Words words, String name, Object[] arguments) {
        switch (name) {
            case "getAll":
                return atAll(words, "getall", (Collection<?>) arguments[0]);
            case "removeAll":
                return atAll(words, "removeall", (Collection<?>) arguments[0]);
            case "invokeAll":
                return atAll(words, "invokeall", (Collection<?>) arguments[0]);
            case "loadAll":
                return atAll(words, (Boolean) arguments[1] ? "loadall replace" : "loadall keep",
                        (Collection<?>) arguments[0]);
            case "putAll":
                Map<?, ?> map = (Map<?, ?>) arguments[0];
                return isUsual(map.keySet()) && !hasNull(map.values())
                        ? new CallWords("putall " + words.pairs(map), keys(words, map.keySet())) : null;
            default:
                return null;
        }
    }

    private static CallWords at(Words words, String operation, Object[] arguments, int count) {
        String key = words.key(arguments[0]);
        String values = Arrays.stream(arguments, 1, count).map(each -> " " + words.value(each))
                .collect(Collectors.joining());
        return new CallWords(operation + " " + key + values, Set.of(key));
    }

    private static CallWords atAll(Words words, String operation, Collection<?> keys) {
        return isUsual(keys) ? new CallWords(operation + " " + words.keys(keys), keys(words, keys)) : null;
    }

    /** A call of no keys does nothing. */
    private static boolean isUsual(Collection<?> keys) {
        return !keys.isEmpty() && !hasNull(keys);
    }

    private static Set<String> keys(Words words, Collection<?> keys) {
        return keys.stream().map(words::key).collect(Collectors.toSet());
    }
}
