//! Entries that expire while calls are under way; and policies that call the cache, or panic.
mod common;
use cadwrelch::call::Begun;
use cadwrelch::{Cache, Error, Expiry, Op};
use common::timed::{CASES, Clock, Noting, a, new, seconds, timed, under};
use common::{Outside, Store, Texts, text};
use std::future::Future;
use std::panic::{AssertUnwindSafe, catch_unwind};
use std::pin::pin;
use std::sync::atomic::Ordering::SeqCst;
use std::sync::{Arc, Mutex, OnceLock, Weak};
use std::task::{Context, Waker};
use std::thread::{scope, yield_now};
use std::time::Duration;

#[test]
fn a_call_waits_for_the_one_that_has_reserved_an_expired_key() {
    let it = timed(|builder| builder.time_to_live(seconds(10)));
    it.cache.put(a(), new("1")).unwrap();
    let Begun::Write(ticket) = it.cache.begin(a(), &Op::Put(Arc::new(new("2")))).unwrap() else {
        panic!("it writes")
    };
    let asked = ticket.ask();
    assert_eq!(
        it.cache.get("a").unwrap(),
        text("1"),
        "before it expires it is found"
    );
    it.clock.go(10);
    assert_eq!((it.cache.expire(), it.cache.len().unwrap()), (0, 0));
    let ops = [
        Op::Get,
        Op::Put(Arc::new(new("3"))),
        Op::Invoke,
        Op::Clear,
        Op::Load,
    ];
    for op in ops {
        assert!(matches!(it.cache.begin(a(), &op).unwrap(), Begun::Busy(_)));
    }
    scope(|threads| {
        let get = threads.spawn(|| it.cache.get("a").unwrap());
        let all = threads.spawn(|| it.cache.get_all([a(), "b".to_string()]).unwrap());
        assert!(!it.cache.contains_key("a").unwrap(), "it waits for nothing");
        while it.cache.waiting() < 2 {
            yield_now();
        }
        assert_eq!(
            it.store.loads.load(SeqCst),
            1,
            "get_all has asked for its other key"
        );
        asked.commit(Ok(())).unwrap();
        assert_eq!(get.join().unwrap(), text("2"));
        assert_eq!(all.join().unwrap().remove("a"), text("2"));
    });
    assert!(it.cache.agrees());
}

#[test]
fn a_call_whose_entry_expires_meanwhile_makes_a_new_one() {
    let policy = Noting::new(10);
    let it = under(&policy);
    let put = || Op::Put(Arc::new(new("2")));
    for (op, asked) in [
        (put(), "create 2"),
        (Op::Reload, "create s"),
        (Op::Invoke, ""),
    ] {
        it.cache.put(a(), new("1")).unwrap();
        let begun = it.cache.begin(a(), &op).unwrap();
        it.clock.go(10);
        policy.take();
        match begun {
            Begun::Write(ticket) => drop(ticket.ask().commit(Ok(())).unwrap()),
            Begun::Load(ticket) => drop(ticket.ask().commit(Ok(Some(new("s")))).unwrap()),
            Begun::Process(ticket) => {
                let processing = ticket.ask();
                assert_eq!(processing.value().unwrap(), Some(&Arc::new(new("1"))));
                processing.commit(None).unwrap();
            }
            _ => panic!("it asks"),
        }
        assert_eq!(policy.take(), asked);
        it.clock.go(9);
        assert_eq!(it.cache.contains_key("a").unwrap(), !asked.is_empty());
        it.cache.remove("a").unwrap();
    }
    assert!(it.cache.agrees());
}

#[test]
fn calls_of_many_keys_meet_each_entry_by_itself() {
    let it = timed(|builder| builder.time_to_live(seconds(10)));
    let key = |i: usize| format!("key{i}");
    for i in 0..6 {
        it.cache.put(key(i), new("old")).unwrap();
        it.store.set(&key(i), "new");
        it.clock.go(2);
    }
    let found = it.cache.get_all((0..8).map(key)).unwrap();
    let found: Vec<_> = (0..8)
        .map(|i| found.get(&key(i)).map(|it| it.to_string()))
        .collect();
    let [old, new] = ["old", "new"].map(|it| Some(it.to_string()));
    assert_eq!(
        found,
        [&new, &new, &old, &old, &old, &old, &None, &None].map(Clone::clone)
    );
    it.clock.go(10);
    it.cache
        .put_all((0..8).map(|i| (key(i), "put".to_string())))
        .unwrap();
    assert_eq!(it.cache.stats().unwrap().puts, 14);
    it.clock.go(10);
    it.cache.remove_all((0..8).map(key)).unwrap();
    assert_eq!(
        it.cache.stats().unwrap().removals,
        0,
        "none of them was there"
    );
    assert!(it.store.held.lock().unwrap().is_empty());
    assert!(it.cache.agrees());
}

#[test]
fn a_processor_sees_no_expired_entry() {
    let it = timed(|builder| builder.time_to_live(seconds(10)).read_through(false));
    it.cache.put(a(), new("1")).unwrap();
    it.clock.go(10);
    let seen = it
        .cache
        .invoke(a(), |entry| Ok((entry.exists(), entry.value()?)));
    assert_eq!(seen.unwrap(), (false, None));
    it.cache.put(a(), new("1")).unwrap();
    let inside = it.cache.invoke(a(), |_| {
        assert_eq!(it.cache.get("a").unwrap(), text("1"));
        it.clock.go(10);
        Ok(matches!(it.cache.get("a"), Err(Error::WouldDeadlock(_))))
    });
    assert!(
        inside.unwrap(),
        "a call inside would wait for its own thread"
    );
    assert!(it.cache.agrees());
}

#[test]
fn phases_of_async_code() {
    let it = timed(|builder| builder.time_to_live(seconds(10)));
    it.cache.put(a(), new("1")).unwrap();
    it.clock.go(10);
    let Begun::Load(ticket) = it.cache.begin(a(), &Op::Get).unwrap() else {
        panic!("what has expired is loaded")
    };
    drop(ticket);
    let put = Op::Put(Arc::new(new("2")));
    let Begun::Write(ticket) = it.cache.begin_for(a(), &put, seconds(3)).unwrap() else {
        panic!("it writes")
    };
    ticket.ask().commit(Ok(())).unwrap();
    it.clock.go(2);
    assert!(matches!(
        it.cache.begin(a(), &Op::Get).unwrap(),
        Begun::Done(_)
    ));
    let Begun::Process(ticket) = it.cache.begin(a(), &Op::Invoke).unwrap() else {
        panic!("it processes")
    };
    let mut processing = ticket.ask();
    it.clock.go(1);
    let Begun::Busy(busy) = it.cache.begin(a(), &Op::Get).unwrap() else {
        panic!("it has expired, and is reserved")
    };
    let (mut busy, mut context) = (pin!(busy), Context::from_waker(Waker::noop()));
    assert!(busy.as_mut().poll(&mut context).is_pending());
    processing.set_for(new("3"), seconds(2));
    processing.start_write();
    processing.commit(Some(Ok(()))).unwrap();
    assert!(busy.as_mut().poll(&mut context).is_ready());
    it.clock.go(1);
    assert_eq!(it.cache.get("a").unwrap(), text("3"));
    it.clock.go(1);
    assert!(!it.cache.contains_key("a").unwrap());
    assert!(it.cache.agrees());
}

#[test]
fn a_first_phase_brings_a_life_to_any_cache() {
    let clock = Clock::default();
    let cache = Cache::<String, String>::builder()
        .clock(clock.read())
        .build()
        .unwrap();
    for op in [
        Op::Put(Arc::new(new("1"))),
        Op::Replace(Arc::new(new("2"))),
        Op::Get,
    ] {
        let begun = cache.begin_for(a(), &op, seconds(3)).unwrap();
        assert!(matches!(begun, Begun::Done(_)));
        clock.go(2);
    }
    assert!(!cache.contains_key("a").unwrap(), "a get brings none");
    assert!(cache.agrees());
}

#[test]
fn an_expired_entry_waits_for_room() {
    let it = timed(|builder| builder.stripes(1).history(16).time_to_live(seconds(10)));
    it.cache.put(a(), new("1")).unwrap();
    it.clock.go(10);
    let begin = |i: usize| it.cache.begin(format!("key{i}"), &Op::Get).unwrap();
    let mut tickets: Vec<_> = (0..8)
        .map(begin)
        .take_while(|it| matches!(it, Begun::Load(_)))
        .collect();
    assert!((4..8).contains(&tickets.len()));
    assert!(!it.cache.contains_key("a").unwrap(), "it waits for nothing");
    let Begun::Busy(busy) = it.cache.begin(a(), &Op::Get).unwrap() else {
        panic!("there is no room for a step more")
    };
    assert_eq!(it.cache.expire(), 0);
    tickets.pop();
    busy.wait::<common::Broken>().unwrap();
    assert_eq!(it.cache.expire(), 1);
    drop(tickets);
    assert!(it.cache.agrees());
}

/// A policy that calls its cache, or panics.
#[derive(Default)]
struct Wild {
    cache: OnceLock<Weak<Cache<String, String, Outside, Outside>>>,
    panics: Mutex<bool>,
    /// What its own calls were answered.
    answers: Mutex<Vec<String>>,
}

impl Wild {
    fn run(&self, key: &str) -> Option<Duration> {
        if *self.panics.lock().unwrap() {
            panic!("the policy panics");
        }
        if let Some(cache) = self
            .cache
            .get()
            .and_then(Weak::upgrade)
            .filter(|_| key != "inner")
        {
            let put = cache.put("inner".to_string(), new("9"));
            self.answers.lock().unwrap().push(format!("{put:?}"));
        }
        Some(seconds(10))
    }
}

impl Expiry<String, String> for Wild {
    fn after_create(&self, key: &String, _value: &String) -> Option<Duration> {
        self.run(key)
    }

    fn after_update(&self, key: &String, _: &String, _: Option<Duration>) -> Option<Duration> {
        self.run(key)
    }

    fn after_read(&self, key: &String, _: &String, _: Option<Duration>) -> Option<Duration> {
        self.run(key)
    }
}

fn wild(has_writer: bool) -> (Arc<Wild>, Arc<Store>, Arc<Texts>) {
    let (policy, store) = (Arc::new(Wild::default()), Arc::new(Store::default()));
    let builder = Cache::builder()
        .stripes(1)
        .capacity(8)
        .expiry(policy.clone());
    let builder = builder.store(store.clone()).write_through(has_writer);
    let cache = Arc::new(builder.build().unwrap());
    policy.cache.set(Arc::downgrade(&cache)).unwrap();
    (policy, store, cache)
}

#[test]
fn a_policy_may_call_the_cache() {
    for has_writer in [true, false] {
        for (name, call, _, _) in CASES {
            let (policy, store, cache) = wild(has_writer);
            store.set("a", "s");
            call(&cache);
            call(&cache);
            let answers = policy.answers.lock().unwrap();
            assert!(answers.iter().all(|it| it == "Ok(())"), "{name}");
            assert!(cache.agrees());
        }
    }
}

#[test]
fn a_policy_that_would_wait_for_room_is_told() {
    let (policy, store) = (Arc::new(Wild::default()), Arc::new(Store::default()));
    let builder = Cache::builder()
        .stripes(1)
        .history(16)
        .expiry(policy.clone());
    let cache = Arc::new(builder.store(store).build().unwrap());
    policy.cache.set(Arc::downgrade(&cache)).unwrap();
    let begin = |i: usize| cache.begin(format!("key{i}"), &Op::Get).unwrap();
    let mut tickets: Vec<_> = (0..8).map(begin).collect();
    tickets.retain(|it| matches!(it, Begun::Load(_)));
    let Some(Begun::Load(last)) = tickets.pop() else {
        panic!("it loads")
    };
    last.ask().commit(Ok(Some(new("1")))).unwrap();
    assert_eq!(*policy.answers.lock().unwrap(), ["Err(WouldDeadlock(At))"]);
    drop(tickets);
    assert!(cache.agrees());
}

#[test]
fn a_policy_is_not_asked_for_a_value_that_can_not_come_in() {
    let policy = Noting::new(10);
    let it = timed(|builder| builder.expiry(policy.clone()).write_through(false));
    it.cache.put(a(), new("1")).unwrap();
    let processing = it.cache.begin(a(), &Op::Invoke).unwrap();
    policy.take();
    let put = Op::Put(Arc::new(new("2")));
    assert!(matches!(it.cache.begin(a(), &put).unwrap(), Begun::Busy(_)));
    assert!(matches!(
        it.cache.begin(a(), &Op::Get).unwrap(),
        Begun::Done(_)
    ));
    assert_eq!(policy.take(), "read 1 10");
    drop(processing);
    assert!(it.cache.agrees());
}

/// A policy that replaces the value of which it is asked, the first time.
#[derive(Default)]
struct Meddling {
    cache: OnceLock<Weak<Cache<String, String>>>,
    asked: Mutex<Vec<String>>,
}

impl Meddling {
    fn run(&self, what: &str, key: &str, value: &str) -> Option<Duration> {
        self.asked.lock().unwrap().push(format!("{what} {value}"));
        if matches!((what, value), ("read", "1") | ("create", "2")) {
            let cache = self.cache.get().and_then(Weak::upgrade).unwrap();
            cache
                .put_for(key.to_string(), new("9"), seconds(60))
                .unwrap();
        }
        Some(seconds(u64::from(value == "9") * 60))
    }
}

impl Expiry<String, String> for Meddling {
    fn after_create(&self, key: &String, value: &String) -> Option<Duration> {
        self.run("create", key, value)
    }

    fn after_update(&self, key: &String, value: &String, _: Option<Duration>) -> Option<Duration> {
        self.run("update", key, value).map(|_| seconds(60))
    }

    fn after_read(&self, key: &String, value: &String, _: Option<Duration>) -> Option<Duration> {
        self.run("read", key, value)
    }
}

#[test]
fn an_answer_counts_for_the_value_of_which_it_was_asked() {
    let policy = Arc::new(Meddling::default());
    let cache = Arc::new(Cache::builder().expiry(policy.clone()).build().unwrap());
    policy.cache.set(Arc::downgrade(&cache)).unwrap();
    cache.put_for(a(), new("1"), seconds(60)).unwrap();
    assert_eq!(cache.get("a").unwrap(), text("9"));
    assert_eq!(*policy.asked.lock().unwrap(), ["read 1", "read 9"]);
    cache.remove("a").unwrap();
    cache.put(a(), new("2")).unwrap();
    assert_eq!(
        cache.get("a").unwrap(),
        text("2"),
        "it was an update, and lives for 60"
    );
    assert_eq!(
        policy.asked.lock().unwrap()[2..],
        ["create 2", "update 2", "read 2"]
    );
    assert!(cache.agrees());
}

#[test]
fn a_policy_that_panics_leaves_no_key_reserved() {
    let (policy, store, cache) = wild(true);
    store.set("b", "s");
    *policy.panics.lock().unwrap() = true;
    let of = |keys: [&str; 2]| keys.map(|key| (key.to_string(), new("2")));
    assert!(catch_unwind(AssertUnwindSafe(|| cache.put(a(), new("1")))).is_err());
    assert!(catch_unwind(AssertUnwindSafe(|| cache.get("b"))).is_err());
    assert!(
        catch_unwind(AssertUnwindSafe(|| cache.get("a"))).is_err(),
        "a read asks first"
    );
    assert!(catch_unwind(AssertUnwindSafe(|| cache.put_all(of(["a", "c"])))).is_err());
    assert_eq!(cache.len().unwrap(), 3, "what was written is cached");
    let keys = ["d", "e"].map(str::to_string);
    keys.iter().for_each(|key| store.set(key, "s"));
    assert!(catch_unwind(AssertUnwindSafe(|| cache.load_all(keys, false))).is_err());
    assert_eq!(cache.len().unwrap(), 5, "what was loaded is cached");
    *policy.panics.lock().unwrap() = false;
    for (key, value) in [("a", "2"), ("b", "s"), ("c", "2"), ("d", "s"), ("e", "s")] {
        assert_eq!(cache.get(key).unwrap(), text(value));
        assert_eq!(store.get(key).as_deref(), Some(value));
    }
    assert!(cache.agrees());
    let (policy, _store, cache) = wild(false);
    *policy.panics.lock().unwrap() = true;
    assert!(catch_unwind(AssertUnwindSafe(|| cache.put(a(), new("1")))).is_err());
    assert!(
        cache.is_empty().unwrap(),
        "nobody was asked, and nothing was done"
    );
    assert!(cache.agrees());
}
