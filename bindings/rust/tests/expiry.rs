//! Entries that expire: what each operation asks the policy, and what it meets.
mod common;
use cadwrelch::call::Begun;
use cadwrelch::{Cache, Op, Reply};
use common::timed::{CASES, Call, Clock, Noting, Timed, a, new, seconds, timed, under};
use common::{Mode, Store, Texts, text};
use std::panic::{AssertUnwindSafe, catch_unwind};
use std::sync::atomic::{AtomicU64, AtomicUsize, Ordering::SeqCst};
use std::sync::{Arc, Weak};
use std::time::Duration;

#[derive(Clone, Copy, Debug, PartialEq)]
enum Before {
    Missing,
    There,
    Expired,
}

#[test]
fn what_each_call_asks_and_replies() {
    use Before::{Expired, Missing, There};
    // With a writer a mutation has two phases, without one of them has one.
    for (has_writer, before) in [true, false]
        .map(|it| [(it, Missing), (it, There), (it, Expired)])
        .concat()
    {
        for (name, call, missing, there) in CASES {
            let policy = Noting::new(10);
            let it = timed(|builder| builder.expiry(policy.clone()));
            let cache = if has_writer {
                it.cache
            } else {
                loading(&it.clock, &it.store, &policy)
            };
            if before != Missing {
                cache.put(a(), new("1")).unwrap();
            }
            it.clock.go(if before == Expired { 10 } else { 0 });
            it.store.set("a", "s");
            policy.take();
            let expected = if before == There { there } else { missing };
            assert_eq!(
                [call(&cache), policy.take()],
                *expected,
                "{name}, {before:?}, {has_writer}"
            );
            assert!(cache.agrees());
        }
    }
}

/// A cache that reads the store alone.
fn loading(clock: &Clock, store: &Arc<Store>, policy: &Arc<Noting>) -> Texts {
    let builder = Cache::builder().expiry(policy.clone()).clock(clock.read());
    builder
        .store(store.clone())
        .write_through(false)
        .build()
        .unwrap()
}

#[test]
fn what_each_call_leaves_to_live() {
    for (name, call, _, [_, asked]) in CASES {
        let policy = Noting::new(10);
        let it = under(&policy);
        it.cache.put(a(), new("1")).unwrap();
        it.clock.go(1);
        *policy.update.lock().unwrap() = Some(Some(seconds(20)));
        *policy.read.lock().unwrap() = Some(Some(seconds(30)));
        it.store.set("a", "s");
        call(&it.cache);
        let is_there = it.cache.len().unwrap() == 1;
        let is_new =
            name.contains("_for") && !name.contains("another") && *name != "put_if_absent_for";
        let life = match asked.split(' ').next() {
            _ if !is_there => 0,
            _ if is_new => 5,
            Some("update") => 20,
            Some("read") => 30,
            _ => 9,
        };
        it.clock.go(life.max(1) - 1);
        assert_eq!(it.cache.contains_key("a").unwrap(), is_there, "{name}");
        it.clock.go(1);
        assert!(!it.cache.contains_key("a").unwrap(), "{name}");
    }
}

#[test]
fn a_failed_call_asks_nothing_and_leaves_the_deadline() {
    for (name, call, _, _) in CASES {
        let policy = Noting::new(10);
        let it = under(&policy);
        it.cache.put(a(), new("1")).unwrap();
        it.store.set("a", "s");
        *it.store.writing.lock().unwrap() = Mode::Fails;
        *it.store.loading.lock().unwrap() = Mode::Fails;
        policy.take();
        it.clock.go(4);
        let result = catch_unwind(AssertUnwindSafe(|| call(&it.cache)));
        if result.is_err() {
            assert_eq!(policy.take(), "", "{name}");
            assert_eq!(it.cache.keys().unwrap(), [Arc::new(a())], "{name}");
        }
        it.clock.go(5);
        let is_there = it.cache.contains_key("a").unwrap();
        it.clock.go(1);
        assert!(!it.cache.contains_key("a").unwrap(), "{name}");
        assert!(is_there || result.is_ok(), "{name}");
        assert!(it.cache.agrees());
    }
}

#[test]
fn time_to_live_and_time_to_idle() {
    let it = timed(|builder| builder.time_to_live(seconds(20)).time_to_idle(seconds(10)));
    let is_there = |it: &Timed| it.cache.contains_key("a").unwrap();
    let reads: [Call; 4] = [CASES[0].1, CASES[7].1, CASES[11].1, CASES[20].1];
    for read in reads {
        it.cache.put(a(), new("1")).unwrap();
        it.clock.go(9);
        assert!(is_there(&it), "to look whether it is there is no use of it");
        read(&it.cache);
        it.clock.go(9);
        assert!(is_there(&it));
        read(&it.cache);
        it.clock.go(1);
        assert!(is_there(&it));
        it.clock.go(1);
        assert!(!is_there(&it), "it has lived for 20 seconds");
        it.cache.put(a(), new("1")).unwrap();
        it.clock.go(10);
        assert!(!is_there(&it), "nobody used it for 10");
    }
    it.cache.put(a(), new("1")).unwrap();
    it.clock.go(9);
    it.cache.put(a(), new("2")).unwrap();
    it.clock.go(9);
    assert_eq!(
        it.cache.get("a").unwrap(),
        text("2"),
        "a write begins a new life"
    );
}

#[test]
fn times_beside_a_policy() {
    let policy = Noting::new(10);
    let it = timed(|builder| builder.expiry(policy.clone()).time_to_live(seconds(5)));
    it.cache.put(a(), new("1")).unwrap();
    it.clock.go(5);
    assert!(!it.cache.contains_key("a").unwrap());
    *policy.create.lock().unwrap() = Some(seconds(3));
    it.cache.put(a(), new("1")).unwrap();
    *policy.read.lock().unwrap() = Some(None);
    it.clock.go(2);
    assert_eq!(it.cache.get("a").unwrap(), text("1"));
    it.clock.go(2);
    assert!(
        it.cache.contains_key("a").unwrap(),
        "the policy lets it live for ever"
    );
    it.clock.go(1);
    assert!(!it.cache.contains_key("a").unwrap(), "but not the cache");
}

#[test]
fn what_the_policy_does_not_change_stays_to_the_second() {
    let policy = Noting::new(10);
    let it = under(&policy);
    it.cache.put(a(), new("1")).unwrap();
    for left in (5..10).rev() {
        it.clock.go(1);
        it.cache.put(a(), new("2")).unwrap();
        assert_eq!(
            policy.take().split(", ").last(),
            Some(&*format!("update 2 {left}"))
        );
        it.cache.get("a").unwrap();
        assert_eq!(policy.take(), format!("read 2 {left}"));
    }
    *policy.update.lock().unwrap() = Some(None);
    it.cache.put(a(), new("3")).unwrap();
    policy.take();
    it.clock.go(1_000_000);
    assert_eq!(it.cache.get("a").unwrap(), text("3"));
    assert_eq!(policy.take(), "read 3 ever");
}

#[test]
fn a_clock_at_its_end_ends_no_life_without_a_deadline() {
    let builder = Cache::<String, String>::builder().clock(|| Duration::MAX);
    let cache = builder.time_to_idle(Duration::MAX).build().unwrap();
    cache.put(a(), new("1")).unwrap();
    assert_eq!(cache.get("a").unwrap(), text("1"));
    cache.put_for(a(), new("1"), Duration::ZERO).unwrap();
    assert_eq!(cache.get("a").unwrap(), None);
}

#[test]
fn a_deadline_that_stays_does_not_drift() {
    let ticks = AtomicU64::new(0);
    let clock = move || seconds(ticks.fetch_add(1, SeqCst));
    let builder = Cache::builder().expiry(Noting::new(1000)).clock(clock);
    let cache = builder.build().unwrap();
    cache.put(a(), new("1")).unwrap();
    // Each looks at the clock before it asks the policy, and after that.
    let reads = (0..1000).take_while(|_| cache.get("a").unwrap().is_some());
    assert!((490..510).contains(&reads.count()));
}

#[test]
fn a_life_of_its_own_needs_no_times() {
    let clock = Clock::default();
    let cache: Cache<String, String> = Cache::builder().clock(clock.read()).build().unwrap();
    cache.put(a(), new("1")).unwrap();
    assert_eq!(cache.get("a").unwrap(), text("1"));
    assert_eq!((cache.keys().unwrap().len(), cache.expire()), (1, 0));
    assert_eq!(
        clock.1.load(SeqCst),
        0,
        "while nothing can expire nobody looks at the clock"
    );
    cache
        .put_for("b".to_string(), new("2"), seconds(5))
        .unwrap();
    clock.go(4);
    assert_eq!(cache.get("b").unwrap(), text("2"));
    clock.go(1);
    assert_eq!(cache.get("b").unwrap(), None);
    assert_eq!(cache.get("a").unwrap(), text("1"));
    cache.put_for(a(), new("3"), seconds(5)).unwrap();
    cache.put(a(), new("4")).unwrap();
    clock.go(1_000_000);
    assert_eq!(
        cache.get("a").unwrap(),
        text("4"),
        "a later put has no life of its own"
    );
    cache.put_for(a(), new("5"), Duration::MAX).unwrap();
    clock.go(1_000_000);
    assert_eq!(cache.get("a").unwrap(), text("5"));
}

#[test]
fn a_life_of_its_own_replaces_that_of_the_cache() {
    let it = timed(|builder| builder.time_to_live(seconds(10)).time_to_idle(seconds(30)));
    it.cache.put_for(a(), new("1"), seconds(20)).unwrap();
    it.clock.go(19);
    assert_eq!(it.cache.get("a").unwrap(), text("1"));
    it.clock.go(1);
    assert!(!it.cache.contains_key("a").unwrap());
    it.cache.put_for(a(), new("1"), seconds(100)).unwrap();
    it.clock.go(30);
    assert!(
        !it.cache.contains_key("a").unwrap(),
        "but nobody has used it for 30"
    );
}

#[test]
fn the_last_value_of_a_processor_counts_with_its_life() {
    let clock = Clock::default();
    let builder = Cache::<String, String>::builder().clock(clock.read());
    let cache = builder.build().unwrap();
    let lives = [Some(seconds(5)), None];
    for (first, last) in [(0, 1), (1, 0)] {
        let set = |entry: &mut cadwrelch::Entry<'_, _, _, _, _>, life| match life {
            Some(life) => entry.set_for(new("1"), life),
            None => entry.set(new("1")),
        };
        let processor = |entry: &mut cadwrelch::Entry<'_, _, _, _, _>| {
            set(entry, lives[first]);
            set(entry, lives[last]);
            Ok(())
        };
        cache.invoke(a(), processor).unwrap();
        clock.go(5);
        assert_eq!(cache.contains_key("a").unwrap(), lives[last].is_none());
    }
}

#[test]
fn an_entry_without_time_to_live_is_never_found() {
    let it = timed(|builder| builder.time_to_live(Duration::ZERO));
    it.store.set("a", "s");
    for loads in 1..3 {
        assert_eq!(it.cache.get("a").unwrap(), text("s"));
        assert_eq!(it.store.loads.load(SeqCst), loads);
    }
    assert!(it.cache.put_if_absent(a(), new("1")).unwrap());
    assert!(it.cache.put_if_absent(a(), new("2")).unwrap());
    assert_eq!(it.store.get("a"), Some(new("2")));
    assert!(it.cache.is_empty().unwrap());
    let Begun::Load(ticket) = it.cache.begin(a(), &Op::Get).unwrap() else {
        panic!("it loads")
    };
    let Begun::Joined(join) = it.cache.begin(a(), &Op::Get).unwrap() else {
        panic!("it joins")
    };
    ticket.ask().commit(Ok(Some(new("3")))).unwrap();
    let joined = join.wait().unwrap();
    assert!(matches!(joined, Some(Reply::Value(value)) if value == text("3")));
    assert!(it.cache.agrees());
}

#[test]
fn what_has_expired_is_not_there_and_is_swept() {
    let it = timed(|builder| builder.stripes(3).time_to_live(seconds(10)));
    let key = |i: usize| format!("key{i}");
    for i in 0..6 {
        it.cache.put(key(i), new("1")).unwrap();
        it.clock.go(1);
    }
    it.clock.go(6);
    let mut keys = it.cache.keys().unwrap();
    keys.sort();
    assert_eq!(keys, [key(3), key(4), key(5)].map(Arc::new));
    assert_eq!(
        (it.cache.len().unwrap(), it.cache.is_empty().unwrap()),
        (3, false)
    );
    let before = it.cache.stats().unwrap();
    assert_eq!((it.cache.expire(), it.cache.expire()), (3, 0));
    assert_eq!(it.cache.stats().unwrap(), before, "a sweep counts nothing");
    assert!(it.cache.agrees());
    it.clock.go(10);
    assert!(it.cache.is_empty().unwrap());
    assert_eq!(it.cache.stats().unwrap().removals, 0);
    it.cache.clear().unwrap();
    assert_eq!(it.cache.expire(), 0, "a clear has swept it");
    it.cache.put(a(), new("1")).unwrap();
    it.clock.go(10);
    it.cache.close();
    assert_eq!(it.cache.expire(), 0);
}

/// A value that looks into its cache when it is dropped.
struct Curious(Weak<Cache<u32, Curious>>, Arc<AtomicUsize>);

impl Drop for Curious {
    fn drop(&mut self) {
        if let Some(cache) = self.0.upgrade() {
            let found = cache.get(&1000).unwrap();
            self.1.fetch_add(1 + usize::from(found.is_some()), SeqCst);
        }
    }
}

#[test]
fn what_is_swept_is_dropped_with_no_lock_held() {
    let (clock, drops) = (Clock::default(), Arc::new(AtomicUsize::new(0)));
    let builder = Cache::builder().stripes(1).capacity(300);
    let cache = Arc::new(
        builder
            .time_to_live(seconds(10))
            .clock(clock.read())
            .build()
            .unwrap(),
    );
    let value = || Curious(Arc::downgrade(&cache), drops.clone());
    for key in 0..200 {
        cache.put(key, value()).unwrap();
    }
    clock.go(5);
    cache.put(1000, value()).unwrap();
    clock.go(5);
    assert_eq!((cache.expire(), drops.load(SeqCst)), (200, 400));
    clock.go(5);
    assert!(cache.get(&1000).unwrap().is_none());
    assert_eq!(
        drops.load(SeqCst),
        401,
        "a call that meets one drops it so, too"
    );
}
