package cadwrelch.tests;

import java.util.ArrayList;
import java.util.Collection;
import java.util.HashMap;
import java.util.List;
import java.util.Map;
import java.util.TreeMap;
import java.util.concurrent.BlockingQueue;
import java.util.concurrent.ConcurrentHashMap;
import java.util.concurrent.LinkedBlockingQueue;
import java.util.concurrent.TimeUnit;
import javax.cache.Cache;
import javax.cache.CacheManager;
import javax.cache.integration.CacheLoader;
import javax.cache.integration.CacheLoaderException;
import javax.cache.integration.CacheWriter;
import javax.cache.integration.CacheWriterException;
import javax.cache.processor.EntryProcessorException;
import javax.cache.processor.MutableEntry;

/**
 * Plays a script through the provider. Each call is made by a thread of its own, whose loader, writer or processor
 * waits until the script says what it does; so the calls interleave as the script says. What is printed is of the
 * transcript what a program that uses a cache sees.
 */
final class Player implements AutoCloseable {
    private final Map<String, String> store = new ConcurrentHashMap<>();
    private final Map<String, Call> calls = new HashMap<>();
    /** The call that has reserved a key. */
    private final Map<String, Call> owners = new HashMap<>();
    private final ThreadLocal<Call> own = new ThreadLocal<>();
    private final List<String> printed = new ArrayList<>();
    private CacheManager manager;
    private Cache<String, String> cache;
    private boolean writeThrough;

    /** A loader, writer or processor that fails, with its code. */
    private static final class Failure extends RuntimeException {
        private static final long serialVersionUID = 1;
        private final String code;

        Failure(String code) {
            this.code = code;
        }
    }

    /** A call, and what it and the player tell each other. */
    private final class Call {
        final String number;
        final String[] words;
        final String key;
        /** What it has come to: whom it asks, or its reply. */
        final BlockingQueue<String> told = new LinkedBlockingQueue<>();
        /** What it does next. */
        private final BlockingQueue<Runnable> orders = new LinkedBlockingQueue<>();
        /** What the loader or writer that it asks answers once the script ends the call. */
        Runnable answer = () -> {};
        String loaded;
        /** What the writer that it asks writes; null if it deletes. */
        String written;
        /** The call whose load it has joined. */
        Call joined;
        volatile boolean isOver;
        /** Of a processor: what the script says of it, while it runs. */
        private String[] process;
        private Thread thread;

        Call(String[] line) {
            number = line[1];
            words = line;
            key = line[4];
        }

        void start() {
            thread = new Thread(() -> {
                own.set(this);
                String reply = reply();
                isOver = true;
                told.add("is " + reply);
            });
            thread.setDaemon(true);
            thread.start();
        }

        private String reply() {
            try {
                return make();
            } catch (EntryProcessorException e) {
                return (e.getCause() instanceof CacheLoaderException ? "LoaderFailed " : "ProcessorFailed ") + code(e);
            } catch (CacheLoaderException e) {
                return "LoaderFailed " + code(e);
            } catch (CacheWriterException e) {
                return "WriterFailed " + code(e);
            } catch (RuntimeException e) {
                return e.toString();
            }
        }

        /** The call of the standard that the script names, and its reply as a transcript has it. */
        private String make() {
            switch (words[3]) {
                case "get": return show(cache.get(key));
                case "contains": return String.valueOf(cache.containsKey(key));
                case "put": cache.put(key, value(words[5])); return "ok";
                case "getput": return show(cache.getAndPut(key, value(words[5])));
                case "putif": return String.valueOf(cache.putIfAbsent(key, value(words[5])));
                case "remove": return String.valueOf(cache.remove(key));
                case "removeif": return String.valueOf(cache.remove(key, value(words[5])));
                case "getremove": return show(cache.getAndRemove(key));
                case "replace": return String.valueOf(cache.replace(key, value(words[5])));
                case "replaceif": return String.valueOf(cache.replace(key, value(words[5]), value(words[6])));
                case "getreplace": return show(cache.getAndReplace(key, value(words[5])));
                case "invoke": return show(cache.invoke(key, this::process));
                default: throw new AssertionError(words[3]);
            }
        }

        /** Tells whom it asks, and waits until the script says how that goes on. */
        private void ask(String whom) {
            told.add(whom);
            try {
                orders.take().run();
            } catch (InterruptedException e) {
                throw new AssertionError(e);
            }
        }

        private String process(MutableEntry<String, String> entry, Object... arguments) {
            ask("process " + show(entry.exists() ? entry.getValue() : null));
            String last = null;
            boolean changes = false;
            for (String word : process) {
                if (word.equals("get")) {
                    last = entry.getValue();
                    told.add("got " + show(last));
                } else if (word.equals("exists")) {
                    told.add("exists " + entry.exists());
                } else if (word.equals("remove")) {
                    entry.remove();
                    changes = true;
                } else if (word.startsWith("set=")) {
                    entry.setValue(value(word.substring(4)));
                    changes = true;
                } else if (word.startsWith("fail=")) {
                    ask("ready");
                    throw new Failure(word.substring(5));
                }
            }
            process = null;
            if (!changes || !writeThrough) {
                ask("ready");
            }
            return last;
        }

        /** What a loader answers that a processor's get asks. */
        private String loadInProcess() {
            for (String word : process) {
                if (word.startsWith("loadfail=")) {
                    ask("ready");
                    throw new Failure(word.substring(9));
                } else if (word.startsWith("loadsay=")) {
                    return value(word.substring(8));
                }
            }
            return store.get(key);
        }

        /** What it tells next. */
        private String awaitTold() throws InterruptedException {
            String next = told.poll(30, TimeUnit.SECONDS);
            if (next == null) {
                throw new AssertionError("call " + number + " doesn't go on");
            }
            return next;
        }

        /** What it tells first, once it was started; null if it waits for another call. */
        private String awaitStart() throws InterruptedException {
            int asleep = 0;
            for (long until = System.nanoTime() + TimeUnit.SECONDS.toNanos(30); System.nanoTime() < until;) {
                boolean waits = thread.getState() == Thread.State.WAITING;
                String next = told.poll(2, TimeUnit.MILLISECONDS);
                if (next != null) {
                    return next;
                }
                asleep = waits ? asleep + 1 : 0;
                if (asleep > 2) {
                    return null;
                }
            }
            throw new AssertionError("call " + number + " doesn't go on");
        }
    }

    private static String show(String value) {
        return value == null ? "-" : value.isEmpty() ? "~" : value;
    }

    private static String value(String word) {
        return word.equals("-") ? null : word.equals("~") ? "" : word;
    }

    private static String code(Throwable it) {
        return it instanceof Failure ? ((Failure) it).code : it.getCause() == null ? it.toString()
                : code(it.getCause());
    }

    /** The loader and the writer: the call that asks says what they do. */
    private final class Outside implements CacheLoader<String, String>, CacheWriter<String, String> {
        @Override
        public String load(String key) {
            Call call = own.get();
            if (call.process != null) {
                return call.loadInProcess();
            }
            call.ask("load");
            return call.loaded;
        }

        @Override
        public void write(Cache.Entry<? extends String, ? extends String> entry) {
            own.get().ask("write " + show(entry.getValue()));
        }

        @Override
        public void delete(Object key) {
            own.get().ask("delete");
        }

        @Override
        public Map<String, String> loadAll(Iterable<? extends String> keys) {
            throw new AssertionError("no call has many keys");
        }

        @Override
        public void writeAll(Collection<Cache.Entry<? extends String, ? extends String>> entries) {
            throw new AssertionError("no call has many keys");
        }

        @Override
        public void deleteAll(Collection<?> keys) {
            throw new AssertionError("no call has many keys");
        }
    }

    /** Plays a script, and gives back what is printed. */
    List<String> play(Script script) throws InterruptedException {
        List<String[]> lines = script.lines();
        for (int i = 0; i < lines.size(); i++) {
            play(lines.get(i), i + 1 == lines.size());
        }
        return printed;
    }

    private void play(String[] line, boolean isLast) throws InterruptedException {
        Call call = line.length < 2 ? null : calls.get(line[1]);
        switch (line[0]) {
            case "open": open(line); break;
            case "set": store.put(line[1], value(line[2])); break;
            case "foreign": change(line[1], value(line[2])); break;
            case "begin": begin(line); break;
            case "read": call.loaded = store.get(call.key); break;
            case "say": call.loaded = said(line, call.key); break;
            case "readfail": fails(call, line[2]); break;
            case "apply": change(call); break;
            case "applyfail": fails(call, line[2]); break;
            case "applylie": change(call); fails(call, line[2]); break;
            case "process": process(call, line); break;
            case "end": end(call); break;
            case "take": take(call); break;
            case "audit": audit(isLast); break;
            default: throw new AssertionError(String.join(" ", line));
        }
    }

    private void open(String[] line) {
        List<String> options = List.of(line).subList(4, line.length);
        writeThrough = options.contains("write");
        manager = Caches.manager(1, Integer.parseInt(line[2]));
        cache = Caches.create(manager, Caches.<String, String>over(new Store<>())
                .setTypes(String.class, String.class)
                .setReadThrough(options.contains("read"))
                .setWriteThrough(writeThrough)
                .setCacheLoaderFactory(Outside::new)
                .setCacheWriterFactory(Outside::new));
    }

    private void change(String key, String value) {
        if (value == null) {
            store.remove(key);
        } else {
            store.put(key, value);
        }
    }

    /** What a call's writer does to the store. */
    private void change(Call call) {
        change(call.key, call.written);
    }

    private static void fails(Call call, String code) {
        call.answer = () -> {
            throw new Failure(code);
        };
    }

    /** The last of the answers for a key. */
    private static String said(String[] line, String key) {
        String said = null;
        for (int i = 2; i < line.length; i++) {
            if (line[i].startsWith(key + "=")) {
                said = value(line[i].substring(key.length() + 1));
            }
        }
        return said;
    }

    private void begin(String[] line) throws InterruptedException {
        Call call = new Call(line);
        calls.put(call.number, call);
        call.start();
        String told = call.awaitStart();
        if (told == null) {
            call.joined = owners.get(call.key);
            print(call, "joined");
        } else {
            came(call, told);
        }
    }

    /** A call has told where it is. */
    private void came(Call call, String told) {
        print(call, told);
        if (!told.startsWith("is ")) {
            owners.put(call.key, call);
        }
        call.written = told.startsWith("write ") ? value(told.substring(6)) : null;
    }

    private void print(Call call, String what) {
        printed.add(call.number + " " + call.key + " " + what);
    }

    private void process(Call call, String[] line) throws InterruptedException {
        call.orders.add(() -> call.process = List.of(line).subList(2, line.length).toArray(new String[0]));
        String told = call.awaitTold();
        while (told.startsWith("got ") || told.startsWith("exists ")) {
            printed.add(call.number + " " + told);
            told = call.awaitTold();
        }
        came(call, told);
    }

    private void end(Call call) throws InterruptedException {
        owners.remove(call.key);
        call.orders.add(call.answer);
        print(call, call.awaitTold());
    }

    private void take(Call call) throws InterruptedException {
        if (call.joined.isOver) {
            print(call, call.awaitTold());
        } else {
            print(call, "waits");
        }
    }

    /**
     * What cache and store have. An iterator uses the entries that it hands out, so only the last line of a script may
     * look.
     */
    private void audit(boolean isLast) {
        if (isLast) {
            Map<String, String> contents = new TreeMap<>();
            cache.forEach(entry -> contents.put(entry.getKey(), entry.getValue()));
            printed.add(shown("cache", contents));
            printed.add(shown("store", new TreeMap<>(store)));
        }
    }

    private static String shown(String what, Map<String, String> contents) {
        StringBuilder shown = new StringBuilder(what);
        contents.forEach((key, value) -> shown.append(' ').append(key).append('=').append(show(value)));
        return shown.toString();
    }

    /** Closes the cache. Calls that a script leaves open stay where they are. */
    @Override
    public void close() {
        if (manager != null) {
            manager.close();
        }
    }

    /** Of a script's transcript the lines that this prints, and of them what a program sees: no place in a history. */
    static List<String> seen(Script script, List<String> transcript) {
        int audit = script.lines().get(script.lines().size() - 1)[0].equals("audit") ? transcript.size() - 4
                : transcript.size();
        List<String> seen = new ArrayList<>();
        for (int i = 0; i < transcript.size(); i++) {
            String line = transcript.get(i);
            String[] words = line.split(" ");
            if (i < audit ? isSeen(words) : i < audit + 2) {
                seen.add(line.replaceAll(" at \\d+\\.\\d+.*", ""));
            }
        }
        return seen;
    }

    private static boolean isSeen(String[] words) {
        return words.length > 2 && (List.of("got", "exists").contains(words[1])
                || List.of("is", "load", "write", "delete", "process", "joined", "waits", "ready").contains(words[2]));
    }
}
