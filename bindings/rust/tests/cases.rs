//! Plays the table of cases that all languages share, bindings/cases, whose README describes the format.
use cadwrelch::{BulkError, Cache, CacheError, Entry, Error, Found, Loader};
use cadwrelch::{Shared, Unwritten, Writer};
use std::cell::RefCell;
use std::collections::{BTreeMap, HashMap};
use std::sync::atomic::{AtomicU64, Ordering::SeqCst};
use std::sync::{Arc, Barrier, Mutex};
use std::thread::{JoinHandle, spawn, yield_now};
use std::time::Duration;

/// What can't be played: a word of a line or the name of a case, and why.
const LEFT_OUT: [(&str, &str); 1] = [("leaves", "a writer that leaves a key has failed")];

type Word = &'static str;
/// A line: its number, words and reply, and the asks below it.
type Line = (usize, Vec<Word>, Word, Vec<Word>);
type Failed = CacheError<Word, Word, Shared<Store>, Shared<Store>>;

thread_local! {
    static WORKER: RefCell<Arc<Worker>> = RefCell::new(Worker::new(""));
}

fn cases_of(text: Word) -> Vec<(Word, Vec<Line>)> {
    let mut cases: Vec<(Word, Vec<Line>)> = Vec::new();
    for (at, line) in text.lines().map(str::trim).enumerate() {
        if let Some(name) = line.strip_prefix("case ") {
            cases.push((name, Vec::new()));
        } else if let Some(asks) = line.strip_prefix("asks ") {
            let lines = &mut cases.last_mut().unwrap().1;
            lines.last_mut().unwrap().3.push(asks);
        } else if !line.is_empty() && !line.starts_with('#') {
            let (call, reply) = line.split_once(':').unwrap_or((line, ""));
            let line = (at + 1, call.split(' ').collect(), reply.trim(), Vec::new());
            cases.last_mut().unwrap().1.push(line);
        }
    }
    cases
}

fn pairs(words: &[Word]) -> BTreeMap<Word, Word> {
    words
        .iter()
        .filter_map(|word| word.split_once('='))
        .collect()
}

fn shown(pairs: &BTreeMap<Word, Word>, nothing: &str) -> String {
    let words: Vec<_> = pairs
        .iter()
        .map(|(key, value)| format!("{key}={value}"))
        .collect();
    or(&words, nothing)
}

fn or(words: &[String], nothing: &str) -> String {
    if words.is_empty() {
        nothing.to_string()
    } else {
        words.join(" ")
    }
}

/// A thread of a case, or the case's own: where it is to be held, and whom its call has asked.
struct Worker {
    held_in: Mutex<Word>,
    gate: Barrier,
    asks: Mutex<Vec<String>>,
}

impl Worker {
    fn new(held_in: Word) -> Arc<Worker> {
        let (held_in, asks) = (Mutex::new(held_in), Mutex::default());
        Arc::new(Worker {
            held_in,
            gate: Barrier::new(2),
            asks,
        })
    }

    /// Meets the player at the gate, if it is to be held here, and once more when it may go on.
    fn hold(place: &str) {
        let own = WORKER.with_borrow(Arc::clone);
        if *own.held_in.lock().unwrap() == place {
            *own.held_in.lock().unwrap() = "";
            own.gate.wait();
            own.gate.wait();
        }
    }

    fn ask(what: &str, words: &[String]) {
        let asked = format!("{what} {}", words.join(" "));
        WORKER.with_borrow(|own| own.asks.lock().unwrap().push(asked));
        Worker::hold("store");
    }
}

/// The loader and the writer. Each call does its work, and then it may be held.
#[derive(Default)]
struct Store {
    stored: Mutex<BTreeMap<Word, Word>>,
    /// What they answer next.
    load_next: Mutex<Vec<Word>>,
    write_next: Mutex<Vec<Word>>,
}

#[derive(Debug)]
struct Broken;

impl Loader<Word, Word> for Store {
    type Error = Broken;

    fn load(&self, key: &Word) -> Result<Option<Word>, Broken> {
        self.load_all(&[key])?.remove(0)
    }

    fn load_all(&self, keys: &[&Word]) -> Result<Vec<Found<Word, Broken>>, Broken> {
        let answer = std::mem::take(&mut *self.load_next.lock().unwrap());
        let found = match answer.as_slice() {
            [] => self.stored.lock().unwrap().clone(),
            [_, found @ ..] => pairs(found),
        };
        let words: Vec<_> = keys.iter().map(|key| key.to_string()).collect();
        Worker::ask("load", &words);
        if answer == ["fails"] {
            return Err(Broken);
        }
        Ok(keys
            .iter()
            .map(|key| Ok(found.get(*key).copied()))
            .collect())
    }
}

impl Writer<Word, Word> for Store {
    type Error = Broken;

    fn write(&self, key: &Word, value: &Word) -> Result<(), Broken> {
        self.write_all(&[(key, value)]).map_err(|it| it.error)
    }

    fn delete(&self, key: &Word) -> Result<(), Broken> {
        self.delete_all(&[key]).map_err(|it| it.error)
    }

    fn write_all(&self, entries: &[(&Word, &Word)]) -> Result<(), Unwritten<Broken>> {
        let words: Vec<_> = entries
            .iter()
            .map(|it| format!("{}={}", it.0, it.1))
            .collect();
        let keys: Vec<_> = entries.iter().map(|it| *it.0).collect();
        self.change("write", &words, &keys, |stored, place| {
            stored.insert(keys[place], entries[place].1);
        })
    }

    fn delete_all(&self, keys: &[&Word]) -> Result<(), Unwritten<Broken>> {
        let words: Vec<_> = keys.iter().map(|key| key.to_string()).collect();
        let keys: Vec<_> = keys.iter().map(|key| **key).collect();
        self.change("delete", &words, &keys, |stored, place| {
            stored.remove(keys[place]);
        })
    }
}

impl Store {
    fn change(
        &self,
        what: &str,
        words: &[String],
        keys: &[Word],
        change: impl Fn(&mut BTreeMap<Word, Word>, usize),
    ) -> Result<(), Unwritten<Broken>> {
        let answer = std::mem::take(&mut *self.write_next.lock().unwrap());
        let is_idle = answer == ["fails"] || answer == ["lies"];
        let all = 0..keys.len();
        let (left, done): (Vec<_>, Vec<_>) = all
            .clone()
            .partition(|at| is_idle || answer.contains(&keys[*at]));
        for place in done {
            change(&mut self.stored.lock().unwrap(), place);
        }
        Worker::ask(what, words);
        let places = if answer.contains(&"though") {
            all.collect()
        } else {
            left
        };
        if answer.contains(&"fails") {
            Err(Unwritten {
                error: Broken,
                places,
            })
        } else {
            Ok(())
        }
    }
}

/// What a call has answered, as a text.
trait Shown {
    fn shown(self) -> String;
}

macro_rules! shown {
    ($($kind:ty, $it:ident => $text:expr;)*) => {
        $(impl Shown for $kind {
            fn shown(self) -> String {
                let $it = self;
                $text
            }
        })*
    };
}

shown! {
    (), _done => "ok".to_string();
    bool, flag => flag.to_string();
    Option<Arc<Word>>, value => value.map_or("none".to_string(), |value| value.to_string());
    HashMap<Word, Arc<Word>>, found => shown(&found.into_iter().map(|(key, value)| (key, *value)).collect(), "none");
    Failed, error => said(&error);
    BulkError<Arc<Word>, Word, Broken, Broken>, stopped => {
        let mut failed: Vec<_> = stopped.failed.iter().map(|key| key.to_string()).collect();
        failed.sort();
        match stopped.error {
            Error::Closed(_) => "closed".to_string(),
            error => format!("{} at {}", error.shown(), or(&failed, "no key")),
        }
    };
}

fn said(error: &Failed) -> String {
    match error {
        Error::Loader(..) => "loader failed".to_string(),
        Error::Writer(..) => "writer failed".to_string(),
        Error::Processor(error, _) => error.to_string(),
        Error::Closed(_) => "closed".to_string(),
        other => format!("{other:?}"),
    }
}

impl<T: Shown, E: Shown> Shown for Result<T, E> {
    fn shown(self) -> String {
        self.map_or_else(Shown::shown, Shown::shown)
    }
}

fn process(
    entry: &mut Entry<'_, Word, Word, Shared<Store>, Shared<Store>>,
    acts: &[Word],
) -> Result<String, Failed> {
    let mut answers = Vec::new();
    for act in acts {
        match *act {
            "get" => answers.push(entry.value().map_or("failed".to_string(), Shown::shown)),
            "exists" => answers.push(entry.exists().to_string()),
            "remove" => entry.remove(),
            "hold" => Worker::hold("processor"),
            "fail" => return Err(Error::processor("processor failed")),
            set => entry.set(set.strip_prefix("set=").unwrap()),
        }
    }
    Ok(or(&answers, "ok"))
}

/// Plays one case.
struct Player {
    cache: Cache<Word, Word, Shared<Store>, Shared<Store>>,
    store: Arc<Store>,
    now: Arc<AtomicU64>,
}

impl Player {
    fn new(options: &[Word]) -> Arc<Player> {
        let (store, now) = (Arc::new(Store::default()), Arc::new(AtomicU64::new(0)));
        let clock = now.clone();
        let number = |name| {
            let at = options.iter().position(|word| *word == name)?;
            options[at + 1].parse().ok()
        };
        let mut builder = Cache::builder()
            .stripes(1)
            .capacity(number("capacity").unwrap_or(100) as usize)
            .clock(move || Duration::from_secs(clock.load(SeqCst)));
        if let Some(time) = number("ttl") {
            builder = builder.time_to_live(Duration::from_secs(time));
        }
        if let Some(time) = number("tti") {
            builder = builder.time_to_idle(Duration::from_secs(time));
        }
        let builder = builder
            .store(store.clone())
            .read_through(options.contains(&"read"));
        let cache = builder
            .write_through(options.contains(&"write"))
            .build()
            .unwrap();
        Arc::new(Player { cache, store, now })
    }

    fn reply(&self, words: &[Word]) -> String {
        let cache = &self.cache;
        match *words {
            ["get", key] => cache.get(&key).shown(),
            ["contains_key", key] => cache.contains_key(&key).shown(),
            ["put", key, value] => cache.put(key, value).shown(),
            ["get_and_put", key, value] => cache.get_and_put(key, value).shown(),
            ["put_if_absent", key, value] => cache.put_if_absent(key, value).shown(),
            ["remove", key] => cache.remove(&key).shown(),
            ["remove_if", key, old] => cache.remove_if(&key, old).shown(),
            ["get_and_remove", key] => cache.get_and_remove(&key).shown(),
            ["replace", key, value] => cache.replace(key, value).shown(),
            ["replace_if", key, old, value] => cache.replace_if(key, old, value).shown(),
            ["get_and_replace", key, value] => cache.get_and_replace(key, value).shown(),
            ["invoke", key, "do", ref acts @ ..] => {
                let reply = cache.invoke(key, |entry| process(entry, acts));
                reply.unwrap_or_else(Shown::shown)
            }
            ["invoke_many", ref rest @ ..] => {
                let (keys, acts) = rest.split_at(rest.iter().position(|it| *it == "do").unwrap());
                let keys = keys.iter().copied();
                let invoked = cache.invoke_all(keys, |entry| process(entry, &acts[1..]));
                let replies = invoked.into_iter().map(|(key, reply)| {
                    let reply = reply.unwrap_or_else(|error| said(&error));
                    (*key, format!("{key}={reply}"))
                });
                let replies: BTreeMap<_, _> = replies.collect();
                replies.into_values().collect::<Vec<_>>().join("; ")
            }
            ["get_many", ref keys @ ..] => cache.get_all(keys.iter().copied()).shown(),
            ["put_many", ref entries @ ..] => cache
                .put_all(entries.iter().filter_map(|it| it.split_once('=')))
                .shown(),
            ["remove_all"] => cache.remove_every().shown(),
            ["remove_many", ref keys @ ..] => cache.remove_all(keys.iter().copied()).shown(),
            ["load_many", "replacing", ref keys @ ..] => {
                cache.load_all(keys.iter().copied(), true).shown()
            }
            ["load_many", ref keys @ ..] => cache.load_all(keys.iter().copied(), false).shown(),
            ["clear"] => cache.clear().shown(),
            ["expire"] => cache.expire().to_string(),
            ["close"] => {
                cache.close();
                ().shown()
            }
            _ => panic!("there is no such line: {words:?}"),
        }
    }

    /// What a line that makes no call shows; None: it makes one.
    fn look(&self, words: &[Word]) -> Option<String> {
        let rest = &words[1..];
        match words[0] {
            "with" => (),
            "load" => *self.store.load_next.lock().unwrap() = rest.to_vec(),
            "write" => *self.store.write_next.lock().unwrap() = rest.to_vec(),
            "store" => self.store.stored.lock().unwrap().extend(pairs(rest)),
            "clock" => self.now.store(rest[0].parse().unwrap(), SeqCst),
            "cache" => {
                for pair in rest {
                    *self.store.load_next.lock().unwrap() = vec!["finds", pair];
                    self.cache.load_all([&pair[..1]], false).unwrap();
                }
                WORKER.with_borrow(|own| own.asks.lock().unwrap().clear());
            }
            "stored" => return Some(shown(&self.store.stored.lock().unwrap(), "nothing")),
            "cached" => {
                let keys = self.cache.keys().unwrap();
                let found = self.cache.get_all(keys.iter().map(|key| **key)).shown();
                return Some(found.replace("none", "nothing"));
            }
            "counted" => return Some(self.counted()),
            _ => return None,
        }
        Some(String::new())
    }

    fn counted(&self) -> String {
        let it = self.cache.stats().unwrap();
        let counts = [it.hits, it.misses, it.puts, it.removals, it.evictions];
        let names = ["hits", "misses", "puts", "removals", "evictions"];
        let counted = names.iter().zip(counts).filter(|it| it.1 > 0);
        or(
            &counted
                .map(|(name, count)| format!("{name} {count}"))
                .collect::<Vec<_>>(),
            "nothing",
        )
    }

    /// Makes a call on a thread of its own, up to where it is held or waits.
    fn begin(
        self: &Arc<Player>,
        is_held: bool,
        call: Vec<Word>,
    ) -> (Arc<Worker>, JoinHandle<String>) {
        let worker = Worker::new(match is_held {
            true if call.contains(&"hold") => "processor",
            true => "store",
            false => "",
        });
        let (player, own, asleep) = (self.clone(), worker.clone(), self.cache.waiting());
        let thread = spawn(move || {
            WORKER.set(own.clone());
            let reply = player.reply(&call);
            // A call that was to be held, and isn't, meets the player all the same.
            if !own.held_in.lock().unwrap().is_empty() {
                own.gate.wait();
            }
            reply
        });
        if is_held {
            worker.gate.wait();
        } else {
            while self.cache.waiting() == asleep && !thread.is_finished() {
                yield_now();
            }
        }
        (worker, thread)
    }
}

/// Plays a case up to its first difference.
fn play(lines: &[Line]) -> Result<(), String> {
    let options = if lines[0].1[0] == "with" {
        &lines[0].1[1..]
    } else {
        &[]
    };
    let (player, own) = (Player::new(options), Worker::new(""));
    let mut threads = HashMap::new();
    WORKER.set(own.clone());
    for (number, words, reply, asks) in lines {
        let (mut wanted, mut worker) = (reply.to_string(), own.clone());
        let found = if let Some(found) = player.look(words) {
            if !found.is_empty() {
                wanted = words[1..].join(" ");
            }
            found
        } else if let [name, what @ ("begins" | "waits"), call @ ..] = words.as_slice() {
            wanted = what.to_string();
            let (begun, thread) = player.begin(*what == "begins", call.to_vec());
            worker = begun.clone();
            let is_held = begun.held_in.lock().unwrap().is_empty();
            let state = if thread.is_finished() || !is_held {
                "ends"
            } else {
                *what
            };
            threads.insert(*name, (begun, thread, *what));
            state.to_string()
        } else if let [name, "ends"] = words.as_slice() {
            let (ended, thread, what) = threads.remove(name).unwrap();
            if what == "begins" {
                ended.gate.wait();
            }
            worker = ended;
            thread.join().unwrap()
        } else {
            player.reply(words)
        };
        let asked = std::mem::take(&mut *worker.asks.lock().unwrap());
        if found != wanted || asked != *asks {
            let line = words.join(" ");
            return Err(format!(
                "{number}: {line}: wanted {wanted} {asks:?}, found {found} {asked:?}"
            ));
        }
    }
    let is_used = player.store.load_next.lock().unwrap().is_empty()
        && player.store.write_next.lock().unwrap().is_empty();
    if is_used && player.cache.agrees() {
        Ok(())
    } else {
        Err("an answer wasn't asked for, or the cache differs from its core".to_string())
    }
}

/// The text of a file, which is there for as long as the process lives: threads have words of it.
fn text_of(path: &std::path::Path) -> Word {
    static TEXTS: Mutex<Vec<Word>> = Mutex::new(Vec::new());
    let text = std::fs::read_to_string(path).unwrap().leak();
    TEXTS.lock().unwrap().push(text);
    text
}

#[test]
fn the_table_of_cases() {
    let folder = std::env::var("CADWRELCH_CASES");
    let folder = folder.unwrap_or(concat!(env!("CARGO_MANIFEST_DIR"), "/../cases").to_string());
    let (mut played, mut left_out, mut failed) = (0, BTreeMap::new(), String::new());
    for path in std::fs::read_dir(folder)
        .unwrap()
        .map(|it| it.unwrap().path())
    {
        if path.extension().is_none_or(|it| it != "cases") {
            continue;
        }
        for (name, lines) in cases_of(text_of(&path)) {
            let has = |word| name == word || lines.iter().any(|line| line.1.contains(&word));
            if let Some(lack) = LEFT_OUT.iter().find(|lack| has(lack.0)) {
                *left_out.entry(lack).or_insert(0) += 1;
            } else {
                played += 1;
                let file = path.file_name().unwrap().to_string_lossy();
                let difference = |why| failed += &format!("{file}:{why} ({name})\n");
                play(&lines).unwrap_or_else(difference);
            }
        }
    }
    println!("{played} cases played, left out: {left_out:?}");
    assert!(failed.is_empty() && played > 0, "{failed}");
}
