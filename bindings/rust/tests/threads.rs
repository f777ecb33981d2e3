//! Calls on threads: joined loads, waiting, deadlocks, and a long run over a store that fails.
mod common;
use cadwrelch::{Builder, BytesCache, Cache, Error, Loader, Writer};
use common::{Broken, Store};
use std::collections::HashMap;
use std::sync::atomic::{AtomicBool, AtomicU64, AtomicUsize, Ordering::SeqCst};
use std::sync::mpsc::{Receiver, Sender, channel};
use std::sync::{Arc, Barrier, Mutex};
use std::thread::{self, scope, yield_now};
use std::time::Duration;

/// A loader that says when it is asked, and answers when it is told to.
struct Gated {
    asked: Mutex<Sender<()>>,
    answers: Mutex<Receiver<Result<u32, Broken>>>,
    loads: AtomicUsize,
}

impl Loader<String, u32> for Gated {
    type Error = Broken;

    fn load(&self, _key: &String) -> Result<Option<u32>, Broken> {
        self.loads.fetch_add(1, SeqCst);
        self.asked.lock().unwrap().send(()).unwrap();
        match self.answers.lock().unwrap().recv() {
            Ok(answer) => answer.map(Some),
            Err(_) => panic!("the loader panics"),
        }
    }
}

struct Gate {
    cache: Cache<String, u32, Gated>,
    asked: Receiver<()>,
    answers: Option<Sender<Result<u32, Broken>>>,
}

fn gate() -> Gate {
    let (ask, asked) = channel();
    let (answers, answered) = channel();
    let loader = Gated {
        asked: Mutex::new(ask),
        answers: Mutex::new(answered),
        loads: AtomicUsize::new(0),
    };
    let cache = Cache::builder()
        .stripes(1)
        .capacity(4)
        .loader(loader)
        .build()
        .unwrap();
    Gate {
        cache,
        asked,
        answers: Some(answers),
    }
}

/// Until so many calls wait: by then they have joined what they joined.
fn wait_until_waiting(cache: &Cache<String, u32, Gated>, count: usize) {
    while cache.waiting() < count {
        yield_now();
    }
}

/// One call loads and seven join it; then the loader answers.
fn joined(answer: impl FnOnce(&mut Option<Sender<Result<u32, Broken>>>)) -> Vec<String> {
    let mut gate = gate();
    let cache = &gate.cache;
    let replies = scope(|threads| {
        let first = threads.spawn(|| cache.get("a"));
        gate.asked.recv().unwrap();
        let others: Vec<_> = (0..7).map(|_| threads.spawn(|| cache.get("a"))).collect();
        wait_until_waiting(cache, 7);
        answer(&mut gate.answers);
        let said = |it: thread::Result<Result<Option<Arc<u32>>, _>>| match it {
            Ok(reply) => format!("{reply:?}"),
            Err(_) => "panic".to_string(),
        };
        let mut replies = vec![said(first.join())];
        replies.extend(others.into_iter().map(|other| said(other.join())));
        replies
    });
    assert_eq!(cache.loader_calls(), 1);
    assert!(cache.agrees());
    replies
}

trait LoaderCalls {
    fn loader_calls(&self) -> usize;
}

impl LoaderCalls for Cache<String, u32, Gated> {
    fn loader_calls(&self) -> usize {
        self.loader().loads.load(SeqCst)
    }
}

#[test]
fn joined_calls_make_one_load() {
    let replies = joined(|answers| answers.as_ref().unwrap().send(Ok(7)).unwrap());
    assert!(replies.iter().all(|it| it == "Ok(Some(7))"), "{replies:?}");
}

#[test]
fn joined_calls_share_the_failure() {
    let replies = joined(|answers| answers.as_ref().unwrap().send(Err(Broken("no"))).unwrap());
    assert!(
        replies
            .iter()
            .all(|it| it == "Err(Loader(Broken(\"no\"), At))"),
        "{replies:?}"
    );
}

#[test]
fn joined_calls_fail_if_the_loader_panics() {
    let replies = joined(|answers| drop(answers.take()));
    assert_eq!(replies[0], "panic");
    assert!(
        replies[1..]
            .iter()
            .all(|it| it == "Err(LoaderPanicked(At))"),
        "{replies:?}"
    );
}

#[test]
fn a_slow_loader_holds_up_its_own_key_alone() {
    let gate = gate();
    let cache = &gate.cache;
    scope(|threads| {
        let slow = threads.spawn(|| cache.get("a"));
        gate.asked.recv().unwrap();
        cache.put("b".into(), 1u32).unwrap();
        assert_eq!(cache.get("b").unwrap().as_deref(), Some(&1));
        let waits = threads.spawn(|| cache.put("a".into(), 2u32));
        wait_until_waiting(cache, 1);
        assert!(!waits.is_finished());
        gate.answers.as_ref().unwrap().send(Ok(7)).unwrap();
        assert_eq!(slow.join().unwrap().unwrap().as_deref(), Some(&7));
        waits.join().unwrap().unwrap();
        assert_eq!(cache.get("a").unwrap().as_deref(), Some(&2));
    });
}

#[test]
fn a_close_wakes_who_waits_to_begin() {
    let gate = gate();
    let cache = &gate.cache;
    scope(|threads| {
        let slow = threads.spawn(|| cache.get("a"));
        gate.asked.recv().unwrap();
        let waits = threads.spawn(|| cache.put("a".into(), 2u32));
        wait_until_waiting(cache, 1);
        cache.close();
        assert!(matches!(waits.join().unwrap(), Err(Error::Closed(_))));
        gate.answers.as_ref().unwrap().send(Ok(7)).unwrap();
        assert_eq!(slow.join().unwrap().unwrap().as_deref(), Some(&7));
    });
    assert!(cache.agrees());
}

/// A loader that asks the cache for other keys: `ab` for `b`, and so on.
struct Nested(
    std::sync::OnceLock<std::sync::Weak<Cache<String, String, Nested>>>,
    Barrier,
);

type NestedError = Error<String, std::convert::Infallible>;

impl Loader<String, String> for Nested {
    type Error = String;

    fn load(&self, key: &String) -> Result<Option<String>, String> {
        let cache = self
            .0
            .get()
            .and_then(std::sync::Weak::upgrade)
            .expect("the cache is there");
        let next = match key.as_str() {
            "own" => "own",
            "left" => "right",
            "right" => "left",
            _ => return Ok(Some(key.clone())),
        };
        if key != "own" {
            self.1.wait();
        }
        let answer: Result<_, NestedError> = cache.get(next);
        answer
            .map(|_| Some(key.clone()))
            .map_err(|error| format!("{error:?}"))
    }
}

fn nested() -> Arc<Cache<String, String, Nested>> {
    let loader = Nested(Default::default(), Barrier::new(2));
    let cache = Arc::new(Cache::builder().loader(loader).build().unwrap());
    cache
        .loader()
        .0
        .set(Arc::downgrade(&cache))
        .expect("it is set once");
    cache
}

#[test]
fn a_loader_that_waits_for_itself_is_told() {
    let cache = nested();
    match cache.get("own") {
        Err(Error::Loader(error, _)) => assert_eq!(*error, "WouldDeadlock(At)"),
        other => panic!("{other:?}"),
    }
    assert!(cache.agrees());
}

#[test]
fn loaders_that_wait_for_each_other_are_told() {
    let cache = nested();
    let replies = scope(|threads| {
        let calls = ["left", "right"].map(|key| {
            let cache = &cache;
            threads.spawn(move || format!("{:?}", cache.get(key)))
        });
        calls.map(|call| call.join().unwrap())
    });
    assert!(
        replies.iter().any(|it| it.contains("WouldDeadlock(At)")),
        "{replies:?}"
    );
    assert!(cache.agrees());
}

fn random(state: &mut u64) -> u64 {
    *state = state
        .wrapping_mul(6364136223846793005)
        .wrapping_add(1442695040888963407);
    *state >> 33
}

/// A store that fails one call of 16, and has changed nothing then.
#[derive(Clone, Default)]
struct Shaky(Arc<Store>, Arc<AtomicUsize>);

impl Shaky {
    fn fails(&self) -> Result<(), Broken> {
        let turn = self.1.fetch_add(1, SeqCst);
        if turn % 16 == 15 {
            return Err(Broken("by chance"));
        }
        if turn % 4 == 0 {
            thread::yield_now();
        }
        Ok(())
    }
}

impl Loader<String, String> for Shaky {
    type Error = Broken;

    fn load(&self, key: &String) -> Result<Option<String>, Broken> {
        self.fails()?;
        Ok(self.0.get(key))
    }
}

impl Writer<String, String> for Shaky {
    type Error = Broken;

    fn write(&self, key: &String, value: &String) -> Result<(), Broken> {
        self.fails()?;
        self.0.set(key, value);
        Ok(())
    }

    fn delete(&self, key: &String) -> Result<(), Broken> {
        self.fails()?;
        self.0.held.lock().unwrap().remove(key);
        Ok(())
    }
}

fn calls_of_one_thread() -> usize {
    std::env::var("STRESS_CALLS")
        .ok()
        .and_then(|it| it.parse().ok())
        .unwrap_or(5_000)
}

/// One of so many kinds of calls: of 16 none brings a value with a life of its own.
fn one_call(cache: &Cache<String, String, Shaky, Shaky>, state: &mut u64, kinds: u64) {
    let key = format!("key{}", random(state) % 96);
    let value = "v".repeat(random(state) as usize % 600);
    let _ = match random(state) % kinds {
        0..8 => cache.get(&key).map(drop),
        8 => cache.put(key, value),
        9 => cache.remove(&key).map(drop),
        10 => cache
            .replace_if(key.clone(), format!("{value}!"), value)
            .map(drop),
        11 => cache.get_and_put(key, value).map(drop),
        12 => cache.invoke(key, |entry| {
            let value = entry.value()?.map_or(String::new(), |it| format!("{it}+"));
            entry.set(value);
            Ok(())
        }),
        13 => {
            let keys = (0..5).map(|i| format!("key{}", (random(state) + i) % 96));
            return drop(cache.get_all(keys.collect::<Vec<_>>()));
        }
        14 => {
            let keys = (0..5).map(|i| (format!("key{}", (random(state) + i) % 96), value.clone()));
            return drop(cache.put_all(keys.collect::<Vec<_>>()));
        }
        15 => cache.put_if_absent(key, value).map(drop),
        16 => cache.put_for(key, value, LIFE),
        17 => cache.replace_for(key, value, LIFE).map(drop),
        _ => {
            cache.expire();
            Ok(())
        }
    };
}

/// So long some values live in a long run: so many reads of its clock, of which each says a nanosecond more.
const LIFE: Duration = Duration::from_nanos(50);

#[test]
fn after_a_long_run_cached_is_stored() {
    long_run([4, 16, 64], 16, |builder| builder);
}

#[test]
fn after_a_long_run_in_little_room_cached_is_stored() {
    long_run([1, 2, 16], 16, |builder| builder);
}

#[test]
fn after_a_long_run_of_short_lives_cached_is_stored() {
    long_run([2, 64, 64], 19, |builder| {
        builder.time_to_live(16 * LIFE).time_to_idle(8 * LIFE)
    });
}

type Built = Builder<String, String, Shaky, Shaky>;

fn long_run([stripes, capacity, history]: [usize; 3], kinds: u64, times: fn(Built) -> Built) {
    let outside = Shaky::default();
    let store = outside.0.clone();
    let (clock, goes) = (AtomicU64::new(0), Arc::new(AtomicBool::new(true)));
    let is_going = goes.clone();
    let builder = Cache::builder()
        .stripes(stripes)
        .capacity(stripes * capacity)
        .history(history)
        .clock(move || {
            let step = u64::from(is_going.load(SeqCst));
            Duration::from_nanos(clock.fetch_add(step, SeqCst))
        })
        .loader(outside.clone())
        .writer(outside);
    let cache = times(builder).build().unwrap();
    scope(|threads| {
        for me in 0..8u64 {
            let cache = &cache;
            threads.spawn(move || {
                let mut state = me * 7919 + 1;
                for _ in 0..calls_of_one_thread() {
                    one_call(cache, &mut state, kinds);
                }
            });
        }
    });
    goes.store(false, SeqCst);
    assert!(cache.agrees());
    let cached = cache.keys().unwrap();
    assert!(!cached.is_empty() && cached.len() <= stripes * capacity);
    assert_eq!(cached.len(), cache.len().unwrap());
    for key in cached {
        assert!(cache.contains_key(&*key).unwrap());
        assert_eq!(
            cache.get(&*key).unwrap().as_deref(),
            store.get(&key).as_ref()
        );
    }
}

#[test]
fn after_a_long_run_cached_bytes_are_stored() {
    type Bytes = HashMap<Vec<u8>, Vec<u8>>;
    #[derive(Clone, Default)]
    struct Held(Arc<Mutex<Bytes>>, Arc<AtomicUsize>);
    impl Held {
        fn fails(&self) -> Result<(), Broken> {
            match self.1.fetch_add(1, SeqCst) % 16 {
                15 => Err(Broken("by chance")),
                _ => Ok(()),
            }
        }
    }
    impl Loader<[u8], Vec<u8>> for Held {
        type Error = Broken;
        fn load(&self, key: &[u8]) -> Result<Option<Vec<u8>>, Broken> {
            self.fails()?;
            Ok(self.0.lock().unwrap().get(key).cloned())
        }
    }
    impl Writer<[u8], [u8]> for Held {
        type Error = Broken;
        fn write(&self, key: &[u8], value: &[u8]) -> Result<(), Broken> {
            self.fails()?;
            self.0.lock().unwrap().insert(key.into(), value.into());
            Ok(())
        }
        fn delete(&self, key: &[u8]) -> Result<(), Broken> {
            self.fails()?;
            self.0.lock().unwrap().remove(key);
            Ok(())
        }
    }
    let outside = Held::default();
    let store = outside.0.clone();
    let cache = BytesCache::builder()
        .stripes(4)
        .capacity(32)
        .loader(outside.clone())
        .writer(outside)
        .build()
        .unwrap();
    scope(|threads| {
        for me in 0..8u64 {
            let cache = &cache;
            threads.spawn(move || {
                let mut state = me * 104729 + 1;
                for _ in 0..calls_of_one_thread() {
                    let key = format!("key{}", random(&mut state) % 48).into_bytes();
                    let value = vec![b'v'; random(&mut state) as usize % 257];
                    let _ = match random(&mut state) % 8 {
                        0..5 => cache.get(&key).map(drop),
                        5 => cache.put(&key, &value),
                        6 => cache.remove(&key).map(drop),
                        _ => cache.put_if_absent(&key, &value).map(drop),
                    };
                }
            });
        }
    });
    for (key, value) in cache.entries().unwrap() {
        assert_eq!(store.lock().unwrap().get(&key), Some(&value));
    }
}
