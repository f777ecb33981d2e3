//! Entries that are loaded again when they are old, and keys that are known to be absent. The clock is the test's.
mod common;
use cadwrelch::call::Begun;
use cadwrelch::{Builder, Cache, Job, Op};
use common::{Mode, Outside, Store, Texts, text};
use std::collections::HashMap;
use std::sync::atomic::{AtomicU64, Ordering::SeqCst};
use std::sync::{Arc, Mutex, mpsc};
use std::thread::yield_now;
use std::time::Duration;

type Built = Builder<String, String, Outside, Outside>;

const AGE: Duration = Duration::from_secs(10);

/// A store with a=1 and b=2, and a cache over it whose clock and whose reloads are the test's.
struct Scene {
    store: Arc<Store>,
    seconds: Arc<AtomicU64>,
    jobs: Arc<Mutex<Vec<Job>>>,
    cache: Texts,
}

fn scene(times: impl FnOnce(Built) -> Built) -> Scene {
    let (store, seconds) = (Arc::new(Store::default()), Arc::new(AtomicU64::new(1000)));
    store.set("a", "1");
    store.set("b", "2");
    let jobs = Arc::<Mutex<Vec<Job>>>::default();
    let (clock, queue) = (seconds.clone(), jobs.clone());
    let builder = Cache::builder()
        .capacity(3)
        .store(store.clone())
        .clock(move || Duration::from_secs(clock.load(SeqCst)))
        .executor(move |job| queue.lock().unwrap().push(job));
    let cache = times(builder).build().unwrap();
    Scene {
        store,
        seconds,
        jobs,
        cache,
    }
}

impl Scene {
    fn go(&self, seconds: u64) {
        self.seconds.fetch_add(seconds, SeqCst);
    }

    fn get(&self, key: &str) -> Option<String> {
        self.cache.get(key).unwrap().map(|it| it.to_string())
    }

    fn get_all(&self, keys: &[&str]) -> HashMap<String, Arc<String>> {
        let keys = keys.iter().map(|key| key.to_string());
        self.cache.get_all(keys).unwrap()
    }

    /// How many reloads were begun, which are made.
    fn reload(&self) -> usize {
        let jobs = std::mem::take(&mut *self.jobs.lock().unwrap());
        jobs.into_iter().map(|job| job()).count()
    }

    fn loads(&self) -> usize {
        self.store.loads.load(SeqCst)
    }
}

#[test]
fn a_get_of_an_old_entry_has_it_loaded_again() {
    let it = scene(|builder| builder.refresh_after(AGE));
    assert_eq!(it.get("a").unwrap(), "1");
    it.store.set("a", "new");
    it.go(9);
    assert_eq!(it.get("a").unwrap(), "1");
    assert_eq!(it.reload(), 0, "it isn't old yet");
    it.go(1);
    assert_eq!(it.get("a").unwrap(), "1", "it is answered at once");
    assert_eq!(it.get("a").unwrap(), "1");
    assert_eq!((it.reload(), it.loads()), (1, 2), "and loaded again once");
    assert_eq!(it.get("a").unwrap(), "new");
    it.go(9);
    it.get("a");
    assert_eq!(it.reload(), 0, "its age is that of its reload");
    it.go(1);
    it.get_all(&["a", "b"]);
    assert_eq!(it.reload(), 1, "a get of many keys finds out, too");
    it.go(10);
    it.cache.contains_key("a").unwrap();
    it.cache.put("a".into(), "put".to_string()).unwrap();
    it.get("a");
    assert_eq!(
        it.reload(),
        0,
        "a contains_key doesn't, a put makes it young"
    );
    assert!(it.cache.agrees());
}

#[test]
fn a_put_is_not_overwritten_by_a_reload() {
    let it = scene(|builder| builder.refresh_after(AGE));
    it.get("a");
    it.go(10);
    it.get("a");
    let begin = |op: Op<String>| it.cache.begin("a".to_string(), &op).unwrap();
    let Begun::Load(ticket) = begin(Op::Reload) else {
        panic!("it loads")
    };
    let asked = ticket.ask();
    assert_eq!(it.reload(), 1, "the key is reserved, so it is left out");
    assert_eq!(it.loads(), 1);
    assert!(matches!(
        begin(Op::Put(Arc::new("2".into()))),
        Begun::Busy(_)
    ));
    asked.commit(Ok(Some("3".to_string()))).unwrap();
    assert_eq!(it.get("a").unwrap(), "3");
}

#[test]
fn a_reload_that_comes_to_nothing_leaves_the_entry() {
    let it = scene(|builder| builder.refresh_after(AGE));
    it.get_all(&["a", "b"]);
    *it.store.loading.lock().unwrap() = Mode::Fails;
    it.go(10);
    assert_eq!((it.get("a").unwrap().as_str(), it.reload()), ("1", 1));
    assert_eq!((it.get("a").unwrap().as_str(), it.reload()), ("1", 0));
    *it.store.loading.lock().unwrap() = Mode::Works;
    it.store.held.lock().unwrap().remove("b");
    it.go(10);
    it.get_all(&["a", "b"]);
    assert_eq!(it.reload(), 2, "then it is tried again");
    assert_eq!(
        it.get("b").unwrap(),
        "2",
        "one that finds nothing leaves it, too"
    );
    it.go(10);
    it.get("a");
    it.cache.close();
    assert_eq!(it.reload(), 1, "of a closed cache it does nothing");
}

#[test]
fn a_reload_of_a_cache_that_is_gone_does_nothing() {
    let it = scene(|builder| builder.refresh_after(AGE));
    it.get("a");
    it.go(10);
    it.get("a");
    let Scene {
        cache, jobs, store, ..
    } = it;
    drop(cache);
    let jobs = std::mem::take(&mut *jobs.lock().unwrap());
    assert_eq!(jobs.into_iter().map(|job| job()).count(), 1);
    assert_eq!(store.loads.load(SeqCst), 1);
}

#[test]
fn an_entry_that_has_expired_is_loaded_by_the_call_that_meets_it() {
    let it = scene(|builder| builder.refresh_after(AGE).time_to_live(3 * AGE));
    it.get("a");
    it.store.set("a", "new");
    it.go(29);
    assert_eq!((it.get("a").unwrap().as_str(), it.reload()), ("1", 1));
    it.go(30);
    it.store.set("a", "newest");
    assert_eq!((it.get("a").unwrap().as_str(), it.reload()), ("newest", 0));
}

#[test]
fn the_caches_own_threads_reload() {
    let (tell, told) = mpsc::channel();
    let tell = Mutex::new(tell);
    let seconds = Arc::new(AtomicU64::new(0));
    let clock = seconds.clone();
    let cache = Cache::builder()
        .loader(move |key: &u32| {
            tell.lock().unwrap().send(*key).unwrap();
            assert!(*key != 0, "a panic ends no thread");
            Ok::<_, String>(Some(clock.load(SeqCst)))
        })
        .refresh_after(AGE);
    let clock = seconds.clone();
    let cache = cache
        .clock(move || Duration::from_secs(clock.load(SeqCst)))
        .build()
        .unwrap();
    cache.put(0, 0).unwrap();
    for key in 1..50 {
        cache.get(&key).unwrap();
    }
    seconds.store(10, SeqCst);
    for key in 0..50 {
        assert_eq!(cache.get(&key).unwrap().as_deref(), Some(&0));
    }
    let mut asked: Vec<u32> = told.iter().skip(49).take(50).collect();
    asked.sort();
    assert!(asked.into_iter().eq(0..50));
    while (1..50).any(|key| cache.get(&key).unwrap().as_deref() != Some(&10)) {
        yield_now();
    }
}

#[test]
fn what_is_absent_is_remembered() {
    let it = scene(|builder| builder.absent_for(AGE));
    assert_eq!((it.get("x"), it.get("x")), (None, None));
    assert_eq!(it.get_all(&["a", "x"]).len(), 1);
    assert!(!it.cache.contains_key("x").unwrap());
    assert_eq!(it.loads(), 2, "x and a were asked for, once each");
    assert_eq!(
        (it.cache.len().unwrap(), it.cache.keys().unwrap().len()),
        (1, 1)
    );
    it.go(10);
    it.store.set("x", "9");
    assert_eq!(it.get("x").unwrap(), "9", "until its time is over");
    assert!(it.get_all(&["y", "z"]).is_empty());
    assert_eq!(
        (it.get("y"), it.loads()),
        (None, 5),
        "a get of many keys remembers, too"
    );
    assert!(it.cache.agrees());
}

type Call = fn(&Texts) -> String;

/// Calls at the key x, which is absent in the store, and what they answer.
const CALLS: [Call; 14] = [
    |it| format!("{:?}", it.put("x".into(), "1".to_string())),
    |it| format!("{:?}", it.get_and_put("x".into(), "1".to_string())),
    |it| format!("{:?}", it.put_if_absent("x".into(), "1".to_string())),
    |it| format!("{:?}", it.remove("x")),
    |it| format!("{:?}", it.remove_if("x", "1".to_string())),
    |it| format!("{:?}", it.get_and_remove("x")),
    |it| format!("{:?}", it.replace("x".into(), "1".to_string())),
    |it| {
        format!(
            "{:?}",
            it.replace_if("x".into(), "1".to_string(), "2".to_string())
        )
    },
    |it| format!("{:?}", it.get_and_replace("x".into(), "1".to_string())),
    |it| format!("{:?}", it.contains_key("x")),
    |it| format!("{:?}", it.load_all(["x".to_string()], false)),
    |it| format!("{:?}", it.remove_all(["x".to_string()])),
    |it| format!("{:?}", it.clear()),
    |it| {
        let seen = it.invoke("x".into(), |entry| Ok((entry.exists(), entry.value()?)));
        format!("{seen:?}")
    },
];

#[test]
fn other_calls_find_nothing_too() {
    for (at, call) in CALLS.iter().enumerate() {
        let seen = [false, true].map(|remembers| {
            let it = scene(|builder| match remembers {
                true => builder.absent_for(AGE),
                false => builder,
            });
            assert_eq!(it.get("x"), None);
            let answer = call(&it.cache);
            assert!(it.cache.agrees(), "{at}");
            let writes = it.store.writes.load(SeqCst);
            (answer, it.cache.keys().unwrap(), it.store.get("x"), writes)
        });
        assert_eq!(seen[0], seen[1], "{at}");
    }
}

#[test]
fn what_is_absent_neither_ages_nor_lives_on() {
    let it = scene(|builder| {
        let builder = builder.absent_for(AGE).time_to_idle(3 * AGE);
        builder.refresh_after(Duration::from_secs(3))
    });
    it.get("x");
    for _ in 0..9 {
        it.go(1);
        it.get("x");
        it.get_all(&["x"]);
    }
    assert_eq!((it.reload(), it.loads()), (0, 1));
    it.go(1);
    it.get("x");
    assert_eq!(it.loads(), 2, "its time is over, which no use makes longer");
}

#[test]
fn what_is_absent_is_forgotten_with_the_rest() {
    let it = scene(|builder| builder.absent_for(AGE));
    let forget: [fn(&Texts); 3] = [
        |cache| cache.clear().unwrap(),
        |cache| cache.invalidate("x"),
        |cache| cache.invalidate_all(),
    ];
    for (at, forget) in forget.into_iter().enumerate() {
        it.store.held.lock().unwrap().remove("x");
        it.cache.clear().unwrap();
        assert_eq!(it.get("x"), None);
        it.store.set("x", "9");
        forget(&it.cache);
        assert_eq!(it.get("x").as_deref(), Some("9"), "{at}");
    }
}

#[test]
fn those_who_join_a_load_find_nothing_too() {
    let it = scene(|builder| builder.absent_for(AGE));
    let begin = || it.cache.begin("x".to_string(), &Op::Get).unwrap();
    let Begun::Load(ticket) = begin() else {
        panic!("it loads")
    };
    let Begun::Joined(join) = begin() else {
        panic!("it joins")
    };
    ticket.ask().commit(Ok(None)).unwrap();
    let joined = join.wait().unwrap();
    assert!(matches!(joined, Some(cadwrelch::Reply::Value(None))));
    assert_eq!((it.get("x"), it.loads()), (None, 0));
}

#[test]
fn what_is_absent_takes_room() {
    let it = scene(|builder| builder.absent_for(AGE));
    for key in 10..20 {
        it.get(&key.to_string());
    }
    assert_eq!(it.loads(), 10);
    for key in ["19", "18", "17"] {
        it.get(key);
    }
    assert_eq!(it.loads(), 10, "the last ones are remembered");
    it.get("16");
    assert_eq!(it.loads(), 11);
    assert_eq!(it.cache.get("a").unwrap(), text("1"));
    assert!(it.cache.agrees());
}

#[test]
fn wrong_times_are_named() {
    let builder = || Cache::<u32, u32>::builder();
    let load = |key: &u32| Ok::<_, String>(Some(*key));
    let loaded = || builder().loader(load);
    let texts = [
        loaded().refresh_after(Duration::ZERO).build().err(),
        loaded().absent_for(Duration::ZERO).build().err(),
        builder().refresh_after(AGE).loader(load).build().err(),
        builder().absent_for(AGE).build().err(),
    ]
    .map(|error| error.unwrap().to_string());
    assert_eq!(
        texts,
        [
            "refresh_after is 0ns: it has to be longer than 0",
            "absent_for is 0ns: it has to be longer than 0",
            "refresh_after is 10s: it has to be set after the loader",
            "absent_for is 10s: it has to be left out while read-through is off",
        ]
    );
}
