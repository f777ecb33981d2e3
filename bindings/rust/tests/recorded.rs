//! Records of calls on threads, over a store that fails and lies, are explained by `jcache check`. Its program is `JCACHE_PROGRAM`, or that
//! of this repository; without it nothing is judged.
use cadwrelch::call::Begun;
use cadwrelch::{BulkError, Cache, Entry, Error, Loader, Op, Shared, Unwritten, Writer};
use std::cell::{Cell, RefCell};
use std::collections::HashMap;
use std::fmt::Write as _;
use std::io::Write as _;
use std::process::{Command, Stdio};
use std::sync::atomic::{AtomicU64, Ordering::SeqCst};
use std::sync::{Arc, LazyLock, Mutex};
use std::thread::{scope, sleep};
use std::time::{Duration, Instant};

const KEYS: [&str; 3] = ["k0", "k1", "k2"];
const THREADS: u64 = 4;
const CALLS: u64 = 60;

static START: LazyLock<Instant> = LazyLock::new(Instant::now);
static NUMBERS: AtomicU64 = AtomicU64::new(0);

thread_local! {
    /// Of this thread: its number, its lines with their times, the number of its call, and the state of its random numbers.
    static THREAD: Cell<u64> = const { Cell::new(0) };
    static LINES: RefCell<Vec<(u128, String)>> = const { RefCell::new(Vec::new()) };
    static CALL: Cell<u64> = const { Cell::new(0) };
    static RANDOM: Cell<u64> = const { Cell::new(1) };
}

fn note(text: &str) {
    let at = START.elapsed().as_nanos();
    LINES.with_borrow_mut(|lines| lines.push((at, format!("t{} {text}", THREAD.get()))));
}

/// A random number below a limit.
fn below(limit: u64) -> u64 {
    let mut x = RANDOM.get();
    x ^= x << 13;
    x ^= x >> 7;
    x ^= x << 17;
    RANDOM.set(x);
    (x >> 16) % limit
}

fn chance(percent: u64) -> bool {
    below(100) < percent
}

fn nap() {
    if chance(50) {
        sleep(Duration::from_micros(below(300)));
    }
}

/// A failure, by its code.
#[derive(Clone, Copy, Debug)]
struct Broken(u64);

impl std::fmt::Display for Broken {
    fn fmt(&self, f: &mut std::fmt::Formatter<'_>) -> std::fmt::Result {
        write!(f, "code {}", self.0)
    }
}

impl std::error::Error for Broken {}

fn broken() -> Broken {
    Broken(NUMBERS.fetch_add(1, SeqCst))
}

/// A map that takes its time, and notes what it is asked and answers. Some of its calls fail, and some writes are done and then fail.
#[derive(Default)]
struct Store(Mutex<HashMap<String, String>>);

impl Store {
    fn get(&self, key: &str) -> Option<String> {
        self.0.lock().unwrap().get(key).cloned()
    }

    fn change(&self, key: &str, value: Option<&String>) {
        let mut held = self.0.lock().unwrap();
        match value {
            Some(value) => held.insert(key.into(), value.clone()),
            None => held.remove(key),
        };
    }

    /// Changes entries, all of which are written, or all deleted. The places of those that it leaves.
    fn change_all(&self, changes: &[(&str, Option<&String>)]) -> Result<(), (Broken, Vec<usize>)> {
        let what = if changes[0].1.is_some() {
            "write"
        } else {
            "delete"
        };
        let call = CALL.get();
        let mut asked = format!("{what} {call}");
        for (key, value) in changes {
            asked.extend([" ", *key]);
            asked.extend(value.iter().flat_map(|value| ["=", value.as_str()]));
        }
        note(&asked);
        nap();
        let fate = below(100);
        let mut left = vec![];
        for (place, (key, value)) in changes.iter().enumerate() {
            if fate < 12 && (changes.len() == 1 || chance(60)) {
                left.push(place);
            } else {
                self.change(key, *value);
            }
        }
        nap();
        if 20 <= fate || fate < 12 && left.is_empty() {
            note(&format!("{what}s {call}"));
            return Ok(());
        }
        let broken = broken();
        // One that lies has changed the entry, and says that it has not.
        let left: Vec<_> = if fate < 12 {
            left
        } else {
            (0..changes.len()).collect()
        };
        let mut told = format!("{what}fails {call} {} but", broken.0);
        for place in &left {
            let _ = write!(told, " {}", changes[*place].0);
        }
        note(&told);
        Err((broken, left))
    }
}

impl Store {
    /// What it has of these keys; or it fails at all of them.
    fn find(&self, keys: &[&String]) -> Result<Vec<Option<String>>, Broken> {
        let call = CALL.get();
        let names: Vec<_> = keys.iter().map(|key| key.as_str()).collect();
        note(&format!("load {call} {}", names.join(" ")));
        nap();
        if chance(12) {
            let broken = broken();
            note(&format!("loadfails {call} {}", broken.0));
            return Err(broken);
        }
        let found: Vec<_> = names.iter().map(|key| self.get(key)).collect();
        nap();
        let mut told = format!("loads {call}");
        for (key, value) in names.iter().zip(&found) {
            told.extend(value.iter().map(|value| format!(" {key}={value}")));
        }
        note(&told);
        Ok(found)
    }
}

impl Loader<String, String> for Store {
    type Error = Broken;

    fn load(&self, key: &String) -> Result<Option<String>, Broken> {
        Ok(self.find(&[key])?.remove(0))
    }

    fn load_all(&self, keys: &[&String]) -> Result<Vec<Result<Option<String>, Broken>>, Broken> {
        Ok(self.find(keys)?.into_iter().map(Ok).collect())
    }
}

impl Writer<String, String> for Store {
    type Error = Broken;

    fn write(&self, key: &String, value: &String) -> Result<(), Broken> {
        self.change_all(&[(key, Some(value))])
            .map_err(|failed| failed.0)
    }

    fn delete(&self, key: &String) -> Result<(), Broken> {
        self.change_all(&[(key, None)]).map_err(|failed| failed.0)
    }

    fn write_all(&self, entries: &[(&String, &String)]) -> Result<(), Unwritten<Broken>> {
        let changes: Vec<_> = entries
            .iter()
            .map(|(key, value)| (key.as_str(), Some(*value)))
            .collect();
        self.change_all(&changes)
            .map_err(|(error, places)| Unwritten { error, places })
    }

    fn delete_all(&self, keys: &[&String]) -> Result<(), Unwritten<Broken>> {
        let changes: Vec<_> = keys.iter().map(|key| (key.as_str(), None)).collect();
        self.change_all(&changes)
            .map_err(|(error, places)| Unwritten { error, places })
    }
}

type Texts = Cache<String, String, Shared<Store>, Shared<Store>>;
type Failed = Error<Broken, Broken>;

fn shown(value: Option<&String>) -> &str {
    value.map_or("-", String::as_str)
}

/// The words of a failure.
fn failure(error: &Failed) -> String {
    match error {
        Error::Loader(broken, _) => format!("LoaderFailed {}", broken.0),
        Error::Writer(broken, _) => format!("WriterFailed {}", broken.0),
        Error::Processor(error, _) => format!(
            "ProcessorFailed {}",
            error.downcast_ref::<Broken>().unwrap().0
        ),
        other => panic!("{other}"),
    }
}

/// A call is begun, noted as these words, made, and its answer is noted.
fn noted(words: &str, made: impl FnOnce() -> Result<String, Failed>) {
    let call = NUMBERS.fetch_add(1, SeqCst);
    CALL.set(call);
    note(&format!("call {call} {words}"));
    let answer = made().unwrap_or_else(|error| failure(&error));
    note(&format!("is {call} {answer}"));
}

fn flag(done: Result<bool, Failed>) -> Result<String, Failed> {
    done.map(|flag| flag.to_string())
}

fn value(done: Result<Option<Arc<String>>, Failed>) -> Result<String, Failed> {
    done.map(|value| shown(value.as_deref()).to_string())
}

fn ok(done: Result<(), Failed>) -> Result<String, Failed> {
    done.map(|()| "ok".into())
}

fn one_key(cache: &Texts, key: &str, new: &str, old: &str) {
    let own = || key.to_string();
    let new_one = || new.to_string();
    let old_one = || old.to_string();
    match below(13) {
        0 | 1 => noted(&format!("get {key}"), || value(cache.get(key))),
        2 => noted(&format!("contains {key}"), || flag(cache.contains_key(key))),
        3 => noted(&format!("put {key} {new}"), || {
            ok(cache.put(own(), new_one()))
        }),
        4 => noted(&format!("getput {key} {new}"), || {
            value(cache.get_and_put(own(), new_one()))
        }),
        5 => noted(&format!("putif {key} {new}"), || {
            flag(cache.put_if_absent(own(), new_one()))
        }),
        6 => noted(&format!("remove {key}"), || flag(cache.remove(key))),
        7 => noted(&format!("removeif {key} {old}"), || {
            flag(cache.remove_if(key, old_one()))
        }),
        8 => noted(&format!("getremove {key}"), || {
            value(cache.get_and_remove(key))
        }),
        9 => noted(&format!("replace {key} {new}"), || {
            flag(cache.replace(own(), new_one()))
        }),
        10 => noted(&format!("replaceif {key} {old} {new}"), || {
            flag(cache.replace_if(own(), old_one(), new_one()))
        }),
        11 => noted(&format!("getreplace {key} {new}"), || {
            value(cache.get_and_replace(own(), new_one()))
        }),
        _ => given_up(cache, key),
    }
}

/// A get by phases, which is dropped before it asks, or once it has asked.
fn given_up(cache: &Texts, key: &str) {
    noted(&format!("get {key}"), || {
        if let Begun::Load(ticket) = cache.begin(key.to_string(), &Op::Get)? {
            nap();
            if chance(60) {
                let asked = ticket.ask();
                let _ = cache.loader().0.load(asked.key());
            }
        }
        Ok("threw Dropped".into())
    });
}

/// A call of a processor on its entry, and its word.
fn step(entry: &mut Entry<'_, String, String, Shared<Store>, Shared<Store>>, new: &str) -> String {
    match below(7) {
        0..=2 => match entry.value() {
            Ok(value) => format!(" get={}", shown(value.as_deref())),
            Err(Error::Loader(broken, _)) => format!(" getfails={}", broken.0),
            Err(other) => panic!("{other}"),
        },
        3 => format!(" exists={}", entry.exists()),
        4 | 5 => {
            entry.set(new.to_string());
            format!(" set={new}")
        }
        _ => {
            entry.remove();
            " remove".into()
        }
    }
}

fn processed(cache: &Texts, key: &str, new: &str) {
    noted(&format!("invoke {key}"), || {
        let call = CALL.get();
        cache.invoke(key.to_string(), |entry| {
            let steps: String = (0..=below(3)).map(|_| step(entry, new)).collect();
            let fails = chance(12).then(broken);
            let end = match fails {
                None => format!("returns={new}"),
                Some(broken) => format!("fails={}", broken.0),
            };
            note(&format!("process {call} {key}{steps} {end}"));
            fails.map_or_else(
                || Ok(new.to_string()),
                |broken| Err(Error::processor(broken)),
            )
        })
    });
}

fn all(
    done: Result<String, BulkError<Arc<String>, String, Broken, Broken>>,
) -> Result<String, Failed> {
    done.map_err(|failed| failed.error)
}

fn many_keys(cache: &Texts, new: &str) {
    let mut names: Vec<_> = KEYS.iter().filter(|_| chance(60)).copied().collect();
    names.push(KEYS[0]);
    names.dedup();
    let distinct: Vec<_> = KEYS
        .iter()
        .filter(|key| names.contains(key))
        .copied()
        .collect();
    let keys = || distinct.iter().map(ToString::to_string);
    let words = distinct.join(" ");
    let replaces = chance(50);
    match below(5) {
        0 => noted(&format!("getall {words}"), || {
            all(cache.get_all(keys()).map(|found| {
                let pairs = found.iter().map(|(key, value)| format!(" {key}={value}"));
                format!("all{}", pairs.collect::<String>())
            }))
        }),
        1 => {
            let pairs: Vec<_> = distinct
                .iter()
                .map(|key| format!("{key}={new}_{key}"))
                .collect();
            noted(&format!("putall {}", pairs.join(" ")), || {
                let entries = keys().map(|key| (key.clone(), format!("{new}_{key}")));
                all(cache.put_all(entries).map(|()| "ok".into()))
            });
        }
        2 => noted(&format!("removeall {words}"), || {
            all(cache.remove_all(keys()).map(|()| "ok".into()))
        }),
        3 => noted(
            &format!(
                "loadall {} {words}",
                if replaces { "replace" } else { "keep" }
            ),
            || all(cache.load_all(keys(), replaces).map(|()| "ok".into())),
        ),
        _ => noted("clear", || ok(cache.clear())),
    }
}

fn work(cache: &Texts, thread: u64, seed: u64) -> Vec<(u128, String)> {
    THREAD.set(thread);
    RANDOM.set((seed * 1000 + thread + 1).wrapping_mul(0x9E37_79B9_7F4A_7C15) | 1);
    for call in 0..CALLS {
        let key = KEYS[below(3) as usize];
        let new = format!("v{thread}_{call}");
        let old = format!("v{}_{}", below(THREADS), call.saturating_sub(below(4)));
        match below(10) {
            0 | 1 => many_keys(cache, &new),
            2 | 3 => processed(cache, key, &new),
            _ => one_key(cache, key, &new, &old),
        }
    }
    LINES.take()
}

/// The record of one run.
fn record(seed: u64) -> String {
    let store = Arc::new(Store::default());
    store.change("k0", Some(&"v0".to_string()));
    let cache: Texts = Cache::builder()
        .stripes(1)
        .capacity(2)
        .store(store)
        .build()
        .unwrap();
    let mut lines: Vec<_> = scope(|threads| {
        let all: Vec<_> = (0..THREADS)
            .map(|thread| {
                threads.spawn({
                    let cache = &cache;
                    move || work(cache, thread, seed)
                })
            })
            .collect();
        all.into_iter()
            .flat_map(|one| one.join().unwrap())
            .collect()
    });
    assert!(cache.agrees());
    lines.sort_by_key(|line| line.0);
    let mut text = "history 1\nopen read write\nset k0 v0\n".to_string();
    for (at, line) in lines {
        let _ = writeln!(text, "@{at} {line}");
    }
    text
}

#[test]
fn records_of_threads_are_explained() {
    let ours = concat!(
        env!("CARGO_MANIFEST_DIR"),
        "/../../crates/jcache/out/jcache"
    )
    .to_string();
    let program = std::env::var("JCACHE_PROGRAM").unwrap_or(ours);
    let runs = if std::path::Path::new(&program).exists() {
        12
    } else {
        1
    };
    for seed in 0..runs {
        let text = record(seed);
        if runs == 1 {
            eprintln!("left out: the verdict (no {program})");
            return;
        }
        let mut check = Command::new(&program)
            .arg("check")
            .stdin(Stdio::piped())
            .stdout(Stdio::piped())
            .spawn()
            .unwrap();
        check
            .stdin
            .take()
            .unwrap()
            .write_all(text.as_bytes())
            .unwrap();
        let said = check.wait_with_output().unwrap();
        assert!(
            said.status.success(),
            "seed {seed}: {}\n{text}",
            String::from_utf8_lossy(&said.stdout)
        );
    }
}
