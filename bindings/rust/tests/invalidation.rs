//! `invalidate`, `suspend` and `resume`: a store that others change.
mod common;

use cadwrelch::call::Begun;
use cadwrelch::{BytesCache, Cache, Error, Loader, Op, Reply, Shared, Writer};
use common::{cache_of, text};
use std::collections::HashMap;
use std::sync::atomic::{AtomicUsize, Ordering::SeqCst};
use std::sync::{Arc, Condvar, Mutex};
use std::thread::{scope, yield_now};

/// A store whose loader and writer wait while it is held, the loader after it has read.
#[derive(Default)]
struct Slow {
    values: Mutex<HashMap<Vec<u8>, Vec<u8>>>,
    is_held: Mutex<bool>,
    changed: Condvar,
    asked: AtomicUsize,
}

impl Slow {
    fn hold(&self, is_held: bool) {
        *self.is_held.lock().unwrap() = is_held;
        self.changed.notify_all();
    }

    fn wait(&self) {
        self.asked.fetch_add(1, SeqCst);
        let held = self.is_held.lock().unwrap();
        let _free = self.changed.wait_while(held, |held| *held).unwrap();
    }

    fn until_asked(&self, times: usize) {
        while self.asked.load(SeqCst) < times {
            yield_now();
        }
    }

    fn set(&self, key: &[u8], value: &[u8]) {
        self.values.lock().unwrap().insert(key.into(), value.into());
    }
}

impl Loader<[u8], Vec<u8>> for Slow {
    type Error = &'static str;

    fn load(&self, key: &[u8]) -> Result<Option<Vec<u8>>, &'static str> {
        let found = self.values.lock().unwrap().get(key).cloned();
        self.wait();
        Ok(found)
    }
}

impl Writer<[u8], [u8]> for Slow {
    type Error = &'static str;

    fn write(&self, key: &[u8], value: &[u8]) -> Result<(), &'static str> {
        self.wait();
        if value == b"bad" {
            return Err("no write");
        }
        self.set(key, value);
        Ok(())
    }

    fn delete(&self, key: &[u8]) -> Result<(), &'static str> {
        self.values.lock().unwrap().remove(key);
        Ok(())
    }
}

impl Loader<Vec<u8>, Vec<u8>> for Slow {
    type Error = &'static str;

    fn load(&self, key: &Vec<u8>) -> Result<Option<Vec<u8>>, &'static str> {
        Loader::load(self, &key[..])
    }
}

impl Writer<Vec<u8>, Vec<u8>> for Slow {
    type Error = &'static str;

    fn write(&self, key: &Vec<u8>, value: &Vec<u8>) -> Result<(), &'static str> {
        Writer::write(self, &key[..], &value[..])
    }

    fn delete(&self, key: &Vec<u8>) -> Result<(), &'static str> {
        Writer::<[u8], [u8]>::delete(self, &key[..])
    }
}

type Objects = Cache<Vec<u8>, Vec<u8>, Shared<Slow>, Shared<Slow>>;
type Bytes = BytesCache<Shared<Slow>, Shared<Slow>>;

/// The calls that both caches have.
trait Both: Sync {
    fn of(store: &Arc<Slow>) -> Self;
    fn get(&self, key: &str) -> Option<String>;
    fn put(&self, key: &str, value: &str) -> bool;
    fn has(&self, key: &str) -> bool;
    fn keys(&self) -> usize;
    fn waiting(&self) -> usize;
    fn invalidate(&self, key: &str);
    fn all(&self, what: &str);
}

macro_rules! both {
    ($cache:ty, $key:expr, $value:expr, $builder:expr, $keys:expr) => {
        impl Both for $cache {
            fn of(store: &Arc<Slow>) -> Self {
                let built = $builder.stripes(1).capacity(8).store(store.clone());
                built.build().unwrap()
            }

            fn get(&self, key: &str) -> Option<String> {
                let found = self.get(key.as_bytes()).unwrap();
                found.map(|it| String::from_utf8(it.to_vec()).unwrap())
            }

            fn put(&self, key: &str, value: &str) -> bool {
                self.put($key(key), $value(value)).is_ok()
            }

            fn has(&self, key: &str) -> bool {
                self.contains_key(key.as_bytes()).unwrap()
            }

            fn keys(&self) -> usize {
                $keys(self)
            }

            fn waiting(&self) -> usize {
                self.waiting()
            }

            fn invalidate(&self, key: &str) {
                self.invalidate(key.as_bytes());
            }

            fn all(&self, what: &str) {
                match what {
                    "suspend" => self.suspend(),
                    "resume" => self.resume(),
                    _ => self.invalidate_all(),
                }
                assert_eq!(self.is_suspended(), what == "suspend");
            }
        }
    };
}

both!(
    Objects,
    |key: &str| key.as_bytes().to_vec(),
    |value: &str| value.as_bytes().to_vec(),
    Cache::builder(),
    |cache: &Objects| cache.len().unwrap()
);
both!(
    Bytes,
    str::as_bytes,
    str::as_bytes,
    BytesCache::builder(),
    |cache: &Bytes| cache.entries().unwrap().len()
);

fn with_both(objects: fn(&Arc<Slow>, &Objects), bytes: fn(&Arc<Slow>, &Bytes)) {
    let store = Arc::new(Slow::default());
    let cache = Objects::of(&store);
    objects(&store, &cache);
    assert!(cache.agrees());
    let store = Arc::new(Slow::default());
    bytes(&store, &Bytes::of(&store));
}

/// An entry goes at once, and the store keeps its value.
fn forget<C: Both>(store: &Arc<Slow>, cache: &C) {
    store.set(b"a", b"1");
    assert_eq!(cache.get("a").as_deref(), Some("1"));
    store.set(b"a", b"2");
    assert_eq!(cache.get("a").as_deref(), Some("1"));
    cache.invalidate("a");
    cache.invalidate("other");
    assert!(!cache.has("a"));
    assert_eq!(cache.get("a").as_deref(), Some("2"));
    assert!(cache.put("b", "3"));
    cache.all("invalidate");
    assert_eq!(cache.keys(), 0);
    assert_eq!(cache.get("b").as_deref(), Some("3"));
}

#[test]
fn an_entry_goes_at_once_and_the_store_is_not_asked() {
    with_both(forget::<Objects>, forget::<Bytes>);
}

fn wait_until_waiting<C: Both>(cache: &C, count: usize) {
    while cache.waiting() != count {
        yield_now();
    }
}

/// A load that has read before is kept from those that begin after, and answers those that had joined it.
fn overtake_a_load<C: Both>(store: &Arc<Slow>, cache: &C) {
    store.set(b"a", b"1");
    store.hold(true);
    scope(|scope| {
        let first = scope.spawn(|| cache.get("a"));
        store.until_asked(1);
        let joined = scope.spawn(|| cache.get("a"));
        wait_until_waiting(cache, 1);
        store.set(b"a", b"2");
        cache.invalidate("a");
        let later = scope.spawn(|| cache.get("a"));
        wait_until_waiting(cache, 2);
        assert!(!cache.has("a"));
        assert_eq!(store.asked.load(SeqCst), 1);
        store.hold(false);
        assert_eq!(first.join().unwrap().as_deref(), Some("1"));
        assert_eq!(joined.join().unwrap().as_deref(), Some("1"));
        assert_eq!(later.join().unwrap().as_deref(), Some("2"));
    });
    assert_eq!(cache.get("a").as_deref(), Some("2"));
    assert_eq!(store.asked.load(SeqCst), 2);
}

#[test]
fn a_load_that_read_before_answers_nobody_who_begins_after() {
    with_both(overtake_a_load::<Objects>, overtake_a_load::<Bytes>);
}

/// Beside a write the entry isn't seen any more, whether the write succeeds or not.
fn overtake_a_write<C: Both>(store: &Arc<Slow>, cache: &C) {
    store.set(b"a", b"1");
    assert_eq!(cache.get("a").as_deref(), Some("1"));
    for (value, is_written, stored) in [("5", true, "5"), ("bad", false, "7")] {
        let asked = store.asked.load(SeqCst);
        store.hold(true);
        scope(|scope| {
            let put = scope.spawn(|| cache.put("a", value));
            store.until_asked(asked + 1);
            assert!(cache.has("a"));
            store.set(b"a", b"7");
            cache.invalidate("a");
            assert!(!cache.has("a"));
            assert_eq!(cache.keys(), 0);
            let got = scope.spawn(|| cache.get("a"));
            wait_until_waiting(cache, 1);
            store.hold(false);
            assert_eq!(put.join().unwrap(), is_written);
            assert_eq!(got.join().unwrap().as_deref(), Some(stored));
        });
    }
}

#[test]
fn beside_a_write_the_entry_is_seen_no_more() {
    with_both(overtake_a_write::<Objects>, overtake_a_write::<Bytes>);
}

fn suspend<C: Both>(store: &Arc<Slow>, cache: &C) {
    store.set(b"a", b"1");
    assert_eq!(cache.get("a").as_deref(), Some("1"));
    cache.all("suspend");
    for _ in 0..2 {
        assert_eq!(cache.get("a").as_deref(), Some("1"));
        assert!(cache.put("b", "2"));
        assert_eq!(cache.keys(), 0);
    }
    assert_eq!(store.asked.load(SeqCst), 5);
    cache.all("resume");
    assert_eq!(cache.get("b").as_deref(), Some("2"));
    assert_eq!(cache.keys(), 1);
}

#[test]
fn while_it_is_suspended_a_cache_keeps_nothing() {
    with_both(suspend::<Objects>, suspend::<Bytes>);
}

/// What began before a `suspend` or a `resume` is kept by neither.
fn overtake_by_resume<C: Both>(store: &Arc<Slow>, cache: &C) {
    store.set(b"a", b"1");
    for (at, what) in ["suspend", "resume", "invalidate"].into_iter().enumerate() {
        store.hold(true);
        scope(|scope| {
            let got = scope.spawn(|| cache.get("a"));
            store.until_asked(at + 1);
            cache.all(what);
            store.hold(false);
            assert_eq!(got.join().unwrap().as_deref(), Some("1"));
        });
        assert_eq!(cache.keys(), 0);
    }
}

#[test]
fn what_began_before_is_kept_by_no_resume() {
    with_both(overtake_by_resume::<Objects>, overtake_by_resume::<Bytes>);
}

#[test]
fn without_a_store_a_suspended_cache_forgets_what_is_put() {
    let cache = Cache::<String, u32>::builder().build().unwrap();
    let bytes = BytesCache::builder().build().unwrap();
    cache.suspend();
    bytes.suspend();
    cache.put("a".into(), 1).unwrap();
    assert!(cache.put_if_absent("a".into(), 2).unwrap());
    bytes.put(b"a", b"1").unwrap();
    assert_eq!(cache.get("a").unwrap(), None);
    assert_eq!(bytes.get(b"a").unwrap(), None);
    assert!(cache.agrees());
}

#[test]
fn a_call_inside_the_load_that_was_overtaken_is_told() {
    let cell: Arc<Mutex<Option<Arc<Cache<u32, u32, _>>>>> = Arc::default();
    let inner = cell.clone();
    let load = move |key: &u32| -> Result<Option<u32>, String> {
        let cache: Arc<Cache<u32, u32, Box<dyn Fn(&u32) -> _ + Send + Sync>>> =
            inner.lock().unwrap().clone().unwrap();
        cache.invalidate(key);
        let told = cache.get(key);
        assert!(matches!(told, Err(Error::WouldDeadlock(_))), "{told:?}");
        Ok(Some(1))
    };
    let load: Box<dyn Fn(&u32) -> Result<Option<u32>, String> + Send + Sync> = Box::new(load);
    let cache = Arc::new(Cache::builder().loader(load).build().unwrap());
    *cell.lock().unwrap() = Some(cache.clone());
    assert_eq!(cache.get(&1).unwrap().as_deref(), Some(&1));
    assert!(cache.is_empty().unwrap() && cache.agrees());
    *cell.lock().unwrap() = None;
}

#[test]
fn in_phases_a_later_call_is_busy() {
    let (store, cache) = cache_of(1, 4);
    store.set("a", "1");
    let begin = |op: &Op<String>| cache.begin("a".to_string(), op).unwrap();
    let Begun::Load(ticket) = begin(&Op::Get) else {
        panic!("it is missing");
    };
    let Begun::Joined(join) = begin(&Op::Get) else {
        panic!("it is being loaded");
    };
    let asked = ticket.ask();
    cache.invalidate("a");
    assert!(matches!(begin(&Op::Get), Begun::Busy(_)));
    assert!(matches!(
        begin(&Op::ContainsKey),
        Begun::Done(Reply::Flag(false))
    ));
    asked.commit(Ok(Some("1".to_string()))).unwrap();
    let joined = join.wait().unwrap();
    assert!(matches!(joined, Some(Reply::Value(Some(value))) if *value == "1"));
    assert!(cache.is_empty().unwrap() && cache.agrees());
    assert_eq!(cache.get("a").unwrap(), text("1"));
}

#[test]
fn without_room_in_the_history_an_entry_is_hidden() {
    let store = Arc::new(common::Store::default());
    let cache = Cache::<String, String>::builder()
        .stripes(1)
        .capacity(30)
        .history(16)
        .store(store.clone());
    let cache = cache.build().unwrap();
    store.set("a", "1");
    cache.get("a").unwrap();
    let mut tickets = Vec::new();
    let blocked = loop {
        let key = format!("key{}", tickets.len());
        match cache.begin(key, &Op::Get).unwrap() {
            Begun::Load(ticket) => tickets.push(ticket.ask()),
            Begun::Busy(busy) => break busy,
            _ => panic!("it is missing"),
        }
    };
    store.set("a", "2");
    cache.invalidate("a");
    assert!(!cache.contains_key("a").unwrap());
    assert!(cache.is_empty().unwrap());
    assert!(matches!(
        cache.begin("a".into(), &Op::Get).unwrap(),
        Begun::Busy(_)
    ));
    drop(tickets);
    blocked.wait::<()>().unwrap();
    assert_eq!(cache.get("a").unwrap(), text("2"));
    assert!(cache.agrees());
}

#[test]
fn a_closed_cache_has_nothing_to_forget() {
    let (_, cache) = cache_of(2, 4);
    cache.put("a".into(), "1".to_string()).unwrap();
    cache.close();
    cache.invalidate("a");
    cache.invalidate_all();
    cache.suspend();
    cache.resume();
    assert!(matches!(cache.get("a"), Err(Error::Closed(_))));
}
