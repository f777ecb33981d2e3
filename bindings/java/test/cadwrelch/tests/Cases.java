package cadwrelch.tests;

import cadwrelch.jcache.CadwrelchConfiguration;
import cadwrelch.jcache.Inside;
import cadwrelch.jcache.Invalidation;
import cadwrelch.tests.Background.Work;
import cadwrelch.tests.Check.Test;
import java.io.IOException;
import java.lang.management.ManagementFactory;
import java.nio.file.DirectoryStream;
import java.nio.file.Files;
import java.nio.file.Path;
import java.util.ArrayList;
import java.util.Collection;
import java.util.HashMap;
import java.util.HashSet;
import java.util.LinkedHashMap;
import java.util.LinkedHashSet;
import java.util.List;
import java.util.Locale;
import java.util.Map;
import java.util.Set;
import java.util.TreeMap;
import java.util.concurrent.ExecutionException;
import java.util.concurrent.TimeUnit;
import java.util.stream.Collectors;
import javax.cache.Cache;
import javax.cache.expiry.Duration;
import javax.cache.expiry.ModifiedExpiryPolicy;
import javax.cache.expiry.TouchedExpiryPolicy;
import javax.cache.integration.CacheLoader;
import javax.cache.integration.CacheLoaderException;
import javax.cache.integration.CacheWriter;
import javax.cache.integration.CacheWriterException;
import javax.cache.integration.CompletionListenerFuture;
import javax.cache.processor.EntryProcessorException;
import javax.cache.processor.MutableEntry;
import javax.management.ObjectName;

/** Plays the table of cases that all languages share, bindings/cases, whose README describes the format. */
final class Cases {
    /** What can't be played: a word of a line or the name of a case, and why. */
    private static final Map<String, String> LEFT_OUT = Map.of(
            "the time to live counts beside the time to idle", "an ExpiryPolicy answers one time",
            "a new entry that is removed again is deleted", "the standard's reference asks for nothing",
            "the failure of a load comes before that of the processor", "the standard wraps what a processor throws",
            "a load_many whose first key is being written", "its thread is the cache's own, and can't be seen to wait");

    private Cases() {}

    /** A line, and those below it that say whom it asks. */
    private static final class Step {
        final int line;
        final List<String> words;
        final String reply;
        final List<String> asks = new ArrayList<>();

        Step(int line, String[] text) {
            this.line = line;
            words = List.of(text[0].split(" "));
            // An exception of the standard names no keys.
            reply = text.length == 1 ? "" : text[1].trim().replaceAll("failed at .*", "failed");
        }
    }

    /** A thread of a case, or the case's own: where it is held, and whom its call has asked. */
    private static final class Worker {
        volatile String heldIn = "";
        final Store.Gate gate = new Store.Gate();
        List<String> asks = new ArrayList<>();
        Work<String> work;

        void hold(String place) {
            if (heldIn.equals(place)) {
                heldIn = "";
                gate.pass();
            }
        }
    }

    /** The loader, the writer or the processor has failed. */
    private static final class Broken extends RuntimeException {
        private static final long serialVersionUID = 1;
    }

    private static Map<String, String> pairs(List<String> words) {
        Map<String, String> pairs = new LinkedHashMap<>();
        words.stream().map(word -> word.split("=")).filter(pair -> pair.length == 2)
                .forEach(pair -> pairs.put(pair[0], pair[1]));
        return pairs;
    }

    private static String shown(Map<?, ?> entries, String between) {
        return entries.entrySet().stream().map(it -> it.getKey() + "=" + it.getValue())
                .collect(Collectors.joining(between));
    }

    private static String or(String text, String none) {
        return text == null || text.isEmpty() ? none : text;
    }

    /** Plays one case. It is the loader and the writer, too: each call does its work, and then it may be held. */
    private static final class Player implements CacheLoader<String, String>, CacheWriter<String, String> {
        final Cache<String, String> cache;
        final Map<String, String> held = new TreeMap<>();
        final Map<String, Worker> workers = new HashMap<>();
        final Worker own = new Worker();
        final ThreadLocal<Worker> mine = new ThreadLocal<>();
        /** Whose loadAll it is that threads of the cache's own make. */
        Worker loading = own;
        /** What they answer next. */
        List<String> loadNext = List.of();
        List<String> writeNext = List.of();
        long now;

        Player(List<String> options) {
            CadwrelchConfiguration<String, String> configuration = new CadwrelchConfiguration<>();
            configuration.setStripes(1).setCapacity(number(options, "capacity", 100))
                    .setClock(() -> now * 1_000_000_000);
            configuration.setTypes(String.class, String.class).setStatisticsEnabled(true)
                    .setReadThrough(options.contains("read")).setCacheLoaderFactory(() -> this)
                    .setWriteThrough(options.contains("write")).setCacheWriterFactory(() -> this);
            Duration time = new Duration(TimeUnit.SECONDS, number(options, "ttl", number(options, "tti", 1)));
            if (options.contains("ttl")) {
                configuration.setExpiryPolicyFactory(() -> new ModifiedExpiryPolicy(time));
            } else if (options.contains("tti")) {
                configuration.setExpiryPolicyFactory(() -> new TouchedExpiryPolicy(time));
            }
            mine.set(own);
            cache = Caches.create(configuration);
        }

        private static int number(List<String> options, String name, int usual) {
            return options.contains(name) ? Integer.parseInt(options.get(options.indexOf(name) + 1)) : usual;
        }

        /** Notes whom a call asks. Then it may be held. */
        private void ask(String asked) {
            Worker worker = mine.get() == null ? loading : mine.get();
            worker.asks.add(asked);
            worker.hold("store");
        }

        @Override
        public String load(String key) {
            return loadAll(List.of(key)).get(key);
        }

        @Override
        public Map<String, String> loadAll(Iterable<? extends String> keys) {
            List<String> answer = loadNext;
            loadNext = List.of();
            Map<String, String> found = answer.isEmpty() ? new HashMap<>(held) : pairs(answer);
            ask("load " + String.join(" ", keys));
            if (answer.equals(List.of("fails"))) {
                throw new Broken();
            }
            return found;
        }

        @Override
        public void write(Cache.Entry<? extends String, ? extends String> entry) {
            change("write ", new ArrayList<>(List.of(entry)));
        }

        @Override
        public void writeAll(Collection<Cache.Entry<? extends String, ? extends String>> entries) {
            change("write ", entries);
        }

        @Override
        public void delete(Object key) {
            change("delete ", new ArrayList<>(List.of(key)));
        }

        @Override
        public void deleteAll(Collection<?> keys) {
            change("delete ", keys);
        }

        /** Changes what it is to change, and takes that out of the collection. */
        private void change(String asked, Collection<?> entries) {
            List<String> answer = writeNext;
            writeNext = List.of();
            boolean isNothingDone = answer.equals(List.of("fails")) || answer.equals(List.of("lies"));
            String all = entries.stream().map(Player::word).collect(Collectors.joining(" "));
            for (Object entry : List.copyOf(entries)) {
                String[] pair = word(entry).split("=");
                if (!isNothingDone && !answer.contains(pair[0])) {
                    held.remove(pair[0]);
                    held.putAll(pairs(List.of(word(entry))));
                    entries.remove(answer.contains("though") ? null : entry);
                }
            }
            if (answer.contains("lies")) {
                entries.clear();
            }
            ask(asked + all);
            if (answer.contains("fails")) {
                throw new Broken();
            }
        }

        /** A key, or an entry. */
        private static String word(Object entry) {
            if (!(entry instanceof Cache.Entry<?, ?>)) {
                return (String) entry;
            }
            return ((Cache.Entry<?, ?>) entry).getKey() + "=" + ((Cache.Entry<?, ?>) entry).getValue();
        }

        private String process(MutableEntry<String, String> entry, List<String> acts) {
            List<String> answers = new ArrayList<>();
            for (String act : acts) {
                switch (act) {
                    case "get": answers.add(valueOf(entry)); break;
                    case "exists": answers.add(String.valueOf(entry.exists())); break;
                    case "remove": entry.remove(); break;
                    case "hold": mine.get().hold("processor"); break;
                    case "fail": throw new Broken();
                    default: entry.setValue(act.substring(4));
                }
            }
            return or(String.join(" ", answers), "ok");
        }

        private static String valueOf(MutableEntry<String, String> entry) {
            try {
                return or(entry.getValue(), "none");
            } catch (CacheLoaderException e) {
                return "failed";
            }
        }

        /** What a call answers. */
        private String reply(List<String> words) throws Exception {
            try {
                return call(words.get(0), words.subList(1, words.size()));
            } catch (CacheLoaderException | CacheWriterException | EntryProcessorException e) {
                return fault(e);
            } catch (IllegalStateException e) {
                return cache.isClosed() ? "closed" : e.toString();
            }
        }

        private static String fault(Throwable error) {
            return error instanceof CacheLoaderException ? "loader failed"
                    : error instanceof CacheWriterException ? "writer failed"
                    : error.getCause() instanceof Broken ? "processor failed" : fault(error.getCause());
        }

        private static String done(Runnable call) {
            call.run();
            return "ok";
        }

        private String call(String verb, List<String> words) throws Exception {
            Set<String> keys = new LinkedHashSet<>(words);
            String key = words.isEmpty() ? "" : words.get(0);
            String value = words.size() < 2 ? "" : words.get(1);
            switch (verb) {
                case "get": return or(cache.get(key), "none");
                case "contains_key": return "" + cache.containsKey(key);
                case "put": return done(() -> cache.put(key, value));
                case "get_and_put": return or(cache.getAndPut(key, value), "none");
                case "put_if_absent": return "" + cache.putIfAbsent(key, value);
                case "remove": return "" + cache.remove(key);
                case "remove_if": return "" + cache.remove(key, value);
                case "get_and_remove": return or(cache.getAndRemove(key), "none");
                case "replace": return "" + cache.replace(key, value);
                case "replace_if": return "" + cache.replace(key, value, words.get(2));
                case "get_and_replace": return or(cache.getAndReplace(key, value), "none");
                case "get_many": return or(shown(new TreeMap<>(cache.getAll(keys)), " "), "none");
                case "put_many": return done(() -> cache.putAll(pairs(words)));
                case "remove_many": return done(() -> cache.removeAll(keys));
                case "remove_all": return done(cache::removeAll);
                case "clear": return done(cache::clear);
                case "expire": return "" + cache.unwrap(Invalidation.class).expire();
                case "close": return done(cache::close);
                case "invoke": return cache.invoke(key, (entry, no) -> process(entry, words.subList(2, words.size())));
                case "invoke_many": return invokeMany(words.subList(0, words.indexOf("do")), words);
                default: return loadMany(keys);
            }
        }

        private String loadMany(Set<String> keys) throws Exception {
            CompletionListenerFuture loaded = new CompletionListenerFuture();
            loading = mine.get();
            cache.loadAll(keys, keys.remove("replacing"), loaded);
            try {
                loaded.get();
                return "ok";
            } catch (ExecutionException e) {
                return fault(e.getCause());
            }
        }

        private String invokeMany(List<String> keys, List<String> words) {
            List<String> acts = words.subList(keys.size() + 1, words.size());
            Map<String, String> replies = new TreeMap<>();
            cache.invokeAll(new LinkedHashSet<>(keys), (entry, no) -> process(entry, acts)).forEach((key, result) -> {
                try {
                    replies.put(key, result.get());
                } catch (CacheLoaderException | CacheWriterException | EntryProcessorException e) {
                    replies.put(key, fault(e));
                }
            });
            return shown(replies, "; ");
        }

        /** What a line answers, or what is looked at. */
        private String step(List<String> words) throws Exception {
            List<String> rest = words.subList(1, words.size());
            switch (words.get(0)) {
                case "with": return "";
                case "store": held.putAll(pairs(rest)); return "";
                case "cache":
                    for (String entry : rest) {
                        loadNext = List.of("finds", entry);
                        loadMany(new HashSet<>(pairs(List.of(entry)).keySet()));
                    }
                    own.asks.clear();
                    return "";
                case "load": loadNext = rest; return "";
                case "write": writeNext = rest; return "";
                case "clock": now = Long.parseLong(rest.get(0)); return "";
                case "stored": return or(shown(held, " "), "nothing");
                case "cached":
                    Map<String, String> cached = new TreeMap<>();
                    cache.forEach(entry -> cached.put(entry.getKey(), entry.getValue()));
                    return or(shown(cached, " "), "nothing");
                case "counted": return or(counted(), "nothing");
                default: return reply(words);
            }
        }

        private String counted() throws Exception {
            ObjectName bean = new ObjectName("javax.cache:type=CacheStatistics,CacheManager="
                    + cache.getCacheManager().getURI().toString().replace(':', '.') + ",Cache=" + cache.getName());
            StringBuilder counted = new StringBuilder();
            for (String count : List.of("Hits", "Misses", "Puts", "Removals", "Evictions")) {
                Object number = ManagementFactory.getPlatformMBeanServer().getAttribute(bean, "Cache" + count);
                counted.append(number.equals(0L) ? "" : " " + count.toLowerCase(Locale.ROOT) + " " + number);
            }
            return counted.toString().trim();
        }

        /** What a line of a thread answers, and that thread. */
        private String threaded(Worker worker, String what, List<String> call) throws Exception {
            if (what.equals("ends")) {
                worker.gate.open();
                return worker.work.result();
            }
            worker.heldIn = what.equals("waits") ? "" : call.contains("hold") ? "processor" : "store";
            worker.work = Background.start(() -> {
                mine.set(worker);
                return reply(call);
            });
            try {
                if (what.equals("begins")) {
                    worker.gate.awaitCall();
                } else {
                    worker.work.awaitSleep();
                }
                return "";
            } catch (AssertionError e) {
                return e.getMessage();
            }
        }

        /** Plays the steps up to the first difference, and says which that is. */
        String play(List<Step> steps) throws Exception {
            for (Step step : steps) {
                List<String> words = step.words;
                boolean isLook = Set.of("stored", "cached", "counted").contains(words.get(0));
                boolean isThreaded = Character.isDigit(words.get(0).charAt(0));
                Worker worker = isThreaded ? workers.computeIfAbsent(words.get(0), name -> new Worker()) : own;
                String wanted = isLook ? String.join(" ", words.subList(1, words.size())) : step.reply;
                String found = isThreaded ? threaded(worker, words.get(1), words.subList(2, words.size()))
                        : step(words);
                List<String> asks = worker.asks;
                worker.asks = new ArrayList<>();
                // The keys of a call that names none come in any order.
                boolean isAnyOrder = words.contains("remove_all");
                boolean areAsksRight = isAnyOrder ? sorted(asks).equals(sorted(step.asks)) : asks.equals(step.asks);
                if (!found.equals(wanted) || !areAsksRight) {
                    return "line " + step.line + ", " + String.join(" ", words) + ": wanted " + wanted + step.asks
                            + ", found " + found + asks;
                }
            }
            if (!cache.isClosed()) {
                Inside.compare(cache);
            }
            cache.close();
            return "" + loadNext + writeNext;
        }

        private static List<String> sorted(List<String> asks) {
            return List.of(String.join(" ", asks).split(" ")).stream().sorted().collect(Collectors.toList());
        }
    }

    private static Map<String, List<Step>> casesOf(Path path) throws IOException {
        Map<String, List<Step>> cases = new LinkedHashMap<>();
        List<Step> steps = List.of();
        int number = 0;
        for (String line : Files.readAllLines(path)) {
            number++;
            String text = line.trim();
            if (text.startsWith("case ")) {
                steps = new ArrayList<>();
                cases.put(text.substring(5), steps);
            } else if (text.startsWith("asks ")) {
                steps.get(steps.size() - 1).asks.add(text.substring(5));
            } else if (!text.isEmpty() && !text.startsWith("#")) {
                steps.add(new Step(number, text.split(":", 2)));
            }
        }
        return cases;
    }

    @Test
    static void playsTheTable() throws Exception {
        Map<String, Integer> leftOut = new TreeMap<>();
        int played = 0;
        Path folder = Path.of(System.getProperty("cases", "../cases"));
        try (DirectoryStream<Path> paths = Files.newDirectoryStream(folder, "*.cases")) {
            for (Path path : paths) {
                for (Map.Entry<String, List<Step>> it : casesOf(path).entrySet()) {
                    List<Step> steps = it.getValue();
                    Set<String> words = steps.stream().flatMap(step -> step.words.stream()).collect(Collectors.toSet());
                    words.add(it.getKey());
                    words.retainAll(LEFT_OUT.keySet());
                    if (!words.isEmpty()) {
                        words.forEach(word -> leftOut.merge(word, 1, Integer::sum));
                        continue;
                    }
                    played++;
                    List<String> first = steps.get(0).words;
                    Check.equal(path.getFileName() + ": " + it.getKey(), "[][]",
                            new Player(first.get(0).equals("with") ? first : List.of()).play(steps));
                }
            }
        }
        Map<String, String> reasons = new TreeMap<>(LEFT_OUT);
        reasons.keySet().retainAll(leftOut.keySet());
        System.out.println(played + " cases played, left out: " + leftOut + " " + reasons);
    }
}
