//! A cache whose clock stands still until a test moves it, and the calls that there are with what they ask a policy.
use super::{Broken, Outside, Store, Texts};
use cadwrelch::{Builder, Cache, Entry, Error, Expiry};
use std::collections::HashMap;
use std::fmt;
use std::sync::atomic::{AtomicU64, AtomicUsize, Ordering::SeqCst};
use std::sync::{Arc, Mutex};
use std::time::Duration;

pub const fn seconds(count: u64) -> Duration {
    Duration::from_secs(count)
}

/// A clock that stands still.
#[derive(Clone, Default)]
pub struct Clock(pub Arc<AtomicU64>, pub Arc<AtomicUsize>);

impl Clock {
    /// So many seconds pass.
    pub fn go(&self, count: u64) {
        self.0.fetch_add(count, SeqCst);
    }

    pub fn read(&self) -> impl Fn() -> Duration + Send + Sync + 'static {
        let Clock(now, reads) = self.clone();
        move || {
            reads.fetch_add(1, SeqCst);
            seconds(1000 + now.load(SeqCst))
        }
    }
}

/// A policy that notes how it is asked, and says what it is told to say.
#[derive(Default)]
pub struct Noting {
    asked: Mutex<Vec<String>>,
    pub create: Mutex<Option<Duration>>,
    /// None: what is left.
    pub update: Mutex<Option<Option<Duration>>>,
    pub read: Mutex<Option<Option<Duration>>>,
}

impl Noting {
    pub fn new(create: u64) -> Arc<Noting> {
        Arc::new(Noting {
            create: Mutex::new(Some(seconds(create))),
            ..Noting::default()
        })
    }

    fn note(&self, what: &str, value: &str) {
        self.asked.lock().unwrap().push(format!("{what} {value}"));
    }

    /// What it was asked since the last time.
    pub fn take(&self) -> String {
        std::mem::take(&mut *self.asked.lock().unwrap()).join(", ")
    }
}

fn shown(left: Option<Duration>) -> String {
    left.map_or("ever".to_string(), |left| left.as_secs().to_string())
}

impl Expiry<String, String> for Noting {
    fn after_create(&self, _key: &String, value: &String) -> Option<Duration> {
        self.note("create", value);
        *self.create.lock().unwrap()
    }

    fn after_update(
        &self,
        _key: &String,
        value: &String,
        left: Option<Duration>,
    ) -> Option<Duration> {
        self.note("update", &format!("{value} {}", shown(left)));
        self.update.lock().unwrap().unwrap_or(left)
    }

    fn after_read(
        &self,
        _key: &String,
        value: &String,
        left: Option<Duration>,
    ) -> Option<Duration> {
        self.note("read", &format!("{value} {}", shown(left)));
        self.read.lock().unwrap().unwrap_or(left)
    }
}

/// A cache before a store, whose clock and policy the test has.
pub struct Timed {
    pub clock: Clock,
    pub store: Arc<Store>,
    pub cache: Texts,
}

type Built = Builder<String, String, Outside, Outside>;

pub fn timed(build: impl FnOnce(Built) -> Built) -> Timed {
    let clock = Clock::default();
    let store = Arc::new(Store::default());
    let builder = Cache::builder().stripes(2).capacity(16).clock(clock.read());
    Timed {
        cache: build(builder.store(store.clone())).build().unwrap(),
        clock,
        store,
    }
}

pub fn under(policy: &Arc<Noting>) -> Timed {
    timed(|builder| builder.expiry(policy.clone()))
}

pub fn a() -> String {
    "a".to_string()
}

pub fn new(value: &str) -> String {
    value.to_string()
}

fn two() -> String {
    "2".to_string()
}

/// An operation at the key `a`, and its reply as a text.
pub type Call = fn(&Texts) -> String;

fn yes<E: fmt::Debug>(reply: Result<bool, E>) -> String {
    reply.unwrap().to_string()
}

fn done<E: fmt::Debug>(reply: Result<(), E>) -> String {
    format!("{:?}", reply.unwrap())
}

fn value<E: fmt::Debug>(reply: Result<Option<Arc<String>>, E>) -> String {
    reply
        .unwrap()
        .map_or("none".into(), |value| value.to_string())
}

fn only(key: &str, reply: HashMap<String, Arc<String>>) -> Result<Option<Arc<String>>, Broken> {
    Ok(reply.get(key).cloned())
}

/// A name; what is called; its reply and what it asks the policy if `a` isn't cached, and if it is, as 1 with 10 seconds left to live.
pub type Case = (&'static str, Call, [&'static str; 2], [&'static str; 2]);

pub const LIFE: Duration = seconds(5);

pub const CASES: &[Case] = &[
    (
        "get",
        |it| value(it.get("a")),
        ["s", "create s"],
        ["1", "read 1 10"],
    ),
    (
        "contains_key",
        |it| yes(it.contains_key("a")),
        ["false", ""],
        ["true", ""],
    ),
    (
        "put",
        |it| done(it.put(a(), two())),
        ["()", "create 2"],
        ["()", "update 2 10"],
    ),
    (
        "get_and_put",
        |it| value(it.get_and_put(a(), two())),
        ["none", "create 2"],
        ["1", "update 2 10"],
    ),
    (
        "put_if_absent",
        |it| yes(it.put_if_absent(a(), two())),
        ["true", "create 2"],
        ["false", ""],
    ),
    (
        "remove",
        |it| yes(it.remove("a")),
        ["false", ""],
        ["true", ""],
    ),
    (
        "remove_if",
        |it| yes(it.remove_if("a", new("1"))),
        ["false", ""],
        ["true", ""],
    ),
    (
        "remove_if another",
        |it| yes(it.remove_if("a", new("9"))),
        ["false", ""],
        ["false", "read 1 10"],
    ),
    (
        "get_and_remove",
        |it| value(it.get_and_remove("a")),
        ["none", ""],
        ["1", ""],
    ),
    (
        "replace",
        |it| yes(it.replace(a(), two())),
        ["false", ""],
        ["true", "update 2 10"],
    ),
    (
        "replace_if",
        |it| yes(it.replace_if(a(), new("1"), two())),
        ["false", ""],
        ["true", "update 2 10"],
    ),
    (
        "replace_if another",
        |it| yes(it.replace_if(a(), new("9"), two())),
        ["false", ""],
        ["false", "read 1 10"],
    ),
    (
        "get_and_replace",
        |it| value(it.get_and_replace(a(), two())),
        ["none", ""],
        ["1", "update 2 10"],
    ),
    (
        "get_all",
        |it| value(only("a", it.get_all([a()]).unwrap())),
        ["s", "create s"],
        ["1", "read 1 10"],
    ),
    (
        "put_all",
        |it| done(it.put_all([(a(), two())])),
        ["()", "create 2"],
        ["()", "update 2 10"],
    ),
    (
        "remove_all",
        |it| done(it.remove_all([a()])),
        ["()", ""],
        ["()", ""],
    ),
    (
        "load_all",
        |it| done(it.load_all([a()], false)),
        ["()", "create s"],
        ["()", ""],
    ),
    (
        "load_all again",
        |it| done(it.load_all([a()], true)),
        ["()", "create s"],
        ["()", "update s 10"],
    ),
    ("clear", |it| done(it.clear()), ["()", ""], ["()", ""]),
    (
        "invoke, nothing",
        |it| done(it.invoke(a(), |_| Ok(()))),
        ["()", ""],
        ["()", ""],
    ),
    (
        "invoke, value",
        |it| value(it.invoke(a(), |e| e.value())),
        ["s", "create s"],
        ["1", "read 1 10"],
    ),
    (
        "invoke, exists",
        |it| yes(it.invoke(a(), |e| Ok(e.exists()))),
        ["false", ""],
        ["true", ""],
    ),
    (
        "invoke, set",
        |it| done(it.invoke(a(), set)),
        ["()", "create 2"],
        ["()", "update 2 10"],
    ),
    (
        "invoke, change",
        |it| done(it.invoke(a(), change)),
        ["()", "create 2"],
        ["()", "update 2 10"],
    ),
    (
        "invoke, remove",
        |it| done(it.invoke(a(), remove)),
        ["()", ""],
        ["()", ""],
    ),
    (
        "invoke, set_for",
        |it| done(it.invoke(a(), set_for)),
        ["()", ""],
        ["()", ""],
    ),
    (
        "put_for",
        |it| done(it.put_for(a(), two(), LIFE)),
        ["()", ""],
        ["()", ""],
    ),
    (
        "get_and_put_for",
        |it| value(it.get_and_put_for(a(), two(), LIFE)),
        ["none", ""],
        ["1", ""],
    ),
    (
        "put_if_absent_for",
        |it| yes(it.put_if_absent_for(a(), two(), LIFE)),
        ["true", ""],
        ["false", ""],
    ),
    (
        "replace_for",
        |it| yes(it.replace_for(a(), two(), LIFE)),
        ["false", ""],
        ["true", ""],
    ),
    (
        "replace_if_for",
        |it| yes(it.replace_if_for(a(), new("1"), two(), LIFE)),
        ["false", ""],
        ["true", ""],
    ),
    (
        "replace_if_for another",
        |it| yes(it.replace_if_for(a(), new("9"), two(), LIFE)),
        ["false", ""],
        ["false", "read 1 10"],
    ),
    (
        "get_and_replace_for",
        |it| value(it.get_and_replace_for(a(), two(), LIFE)),
        ["none", ""],
        ["1", ""],
    ),
];

type Inside<'c> = Entry<'c, String, String, Outside, Outside>;
type Ended = Result<(), Error<Broken, Broken>>;

fn set(entry: &mut Inside<'_>) -> Ended {
    entry.set(two());
    Ok(())
}

fn set_for(entry: &mut Inside<'_>) -> Ended {
    entry.set_for(two(), LIFE);
    Ok(())
}

fn remove(entry: &mut Inside<'_>) -> Ended {
    entry.remove();
    Ok(())
}

fn change(entry: &mut Inside<'_>) -> Ended {
    assert_eq!(entry.value()?.is_some(), entry.exists());
    set(entry)
}
