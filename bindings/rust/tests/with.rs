//! Loaders that differ by call, and who is told of evictions.
mod common;
use cadwrelch::call::Begun;
use cadwrelch::{ByCall, Cache, Error, Op};
use common::{Broken, cache_of, text};
use std::future::{Future, pending, ready};
use std::panic::{AssertUnwindSafe, catch_unwind};
use std::pin::pin;
use std::sync::atomic::{AtomicUsize, Ordering::SeqCst};
use std::sync::{Arc, Mutex};
use std::task::{Context, Poll, Waker};
use std::thread::{scope, yield_now};

fn numbers() -> Cache<u32, u32, ByCall<Broken>> {
    Cache::builder().loader(ByCall::new()).build().unwrap()
}

fn poll<T>(future: impl Future<Output = T>) -> Poll<T> {
    pin!(future).poll(&mut Context::from_waker(Waker::noop()))
}

fn now<T>(future: impl Future<Output = T>) -> T {
    match poll(future) {
        Poll::Ready(value) => value,
        Poll::Pending => panic!("it waits"),
    }
}

#[test]
fn a_loader_of_a_call_is_asked_if_the_key_is_missing() {
    for read_through in [true, false] {
        let built = Cache::<u32, u32>::builder().loader(ByCall::new());
        let built = built.read_through(read_through);
        let cache = built.build().unwrap();
        let get = |found| cache.get_or_load_with(&1, |key| Ok(Some(*key + found)));
        assert_eq!(get(10).unwrap().as_deref(), Some(&11));
        assert_eq!(get(20).unwrap().as_deref(), Some(&11), "it is cached");
        assert_eq!(
            now(cache.get_with(1, pending())).unwrap().as_deref(),
            Some(&11)
        );
        assert_eq!(
            now(cache.get_with(2, ready(Ok(Some(5)))))
                .unwrap()
                .as_deref(),
            Some(&5)
        );
        assert_eq!(cache.get_or_load_with(&3, |_| Ok(None)).unwrap(), None);
        assert_eq!(now(cache.get_with(3, ready(Ok(None)))).unwrap(), None);
        let failed = cache.get_or_load_with(&3, |_| Err(Broken("no load")));
        assert!(matches!(failed, Err(Error::Loader(error, _)) if *error == Broken("no load")));
        let failed = now(cache.get_with(3, ready(Err(Broken("no load")))));
        assert!(matches!(failed, Err(Error::Loader(..))));
        let panics = AssertUnwindSafe(|| cache.get_or_load_with(&3, |_| panic!("no load")));
        assert!(catch_unwind(panics).is_err());
        assert_eq!(cache.len().unwrap(), 2);
        let stats = cache.stats().unwrap();
        assert_eq!((stats.hits, stats.misses), (2, 7), "{read_through}");
        assert!(cache.agrees());
    }
}

#[test]
fn calls_may_move_to_other_threads() {
    fn sent<T: Send>(_: T) {}
    let cache = numbers();
    sent(cache.get_with(1, ready(Ok(Some(5)))));
    sent(cache.begin(1, &Op::Get));
    sent(Cache::<u32, u32>::builder());
}

#[test]
fn calls_of_one_key_share_a_load() {
    let (cache, asked) = (numbers(), AtomicUsize::new(0));
    scope(|threads| {
        for _ in 0..8 {
            threads.spawn(|| {
                let value = cache.get_or_load_with(&1, |_| {
                    asked.fetch_add(1, SeqCst);
                    while cache.waiting() < 7 {
                        yield_now();
                    }
                    Ok(Some(9))
                });
                assert_eq!(value.unwrap().as_deref(), Some(&9));
            });
        }
    });
    assert_eq!(asked.load(SeqCst), 1);
}

/// A load that was joined and finds nothing says nothing of what another loader finds.
#[test]
fn a_call_whose_join_finds_nothing_asks_its_own_loader() {
    let cache = numbers();
    let Begun::Load(ticket) = cache.begin(1, &Op::Get).unwrap() else {
        panic!("it loads")
    };
    let asked = ticket.ask();
    let mut future = pin!(cache.get_with(1, ready(Ok(Some(5)))));
    let mut context = Context::from_waker(Waker::noop());
    assert!(future.as_mut().poll(&mut context).is_pending(), "it joins");
    asked.commit(Ok(None)).unwrap();
    assert_eq!(now(future).unwrap().as_deref(), Some(&5));
    assert!(cache.agrees());
}

#[test]
fn a_future_that_is_dropped_has_loaded_nothing() {
    let cache = numbers();
    assert!(poll(cache.get_with(1, pending())).is_pending());
    let mut joined = pin!(cache.get_with(1, ready(Ok(Some(6)))));
    {
        let mut pends = pin!(cache.get_with(1, pending()));
        let mut context = Context::from_waker(Waker::noop());
        assert!(pends.as_mut().poll(&mut context).is_pending());
        assert!(joined.as_mut().poll(&mut context).is_pending());
    }
    assert_eq!(now(joined).unwrap().as_deref(), Some(&6));
    assert!(cache.agrees());
}

#[test]
fn a_loader_of_a_call_that_would_wait_for_itself_is_told() {
    let cache = numbers();
    let value = cache.get_or_load_with(&1, |key| {
        let inner = cache.get_or_load_with(key, |_| Ok(Some(1)));
        assert!(matches!(inner, Err(Error::WouldDeadlock(_))));
        Ok(Some(2))
    });
    assert_eq!(value.unwrap().as_deref(), Some(&2));
}

#[test]
fn a_listener_is_told_of_what_a_full_stripe_evicts() {
    let told = Arc::<Mutex<Vec<(u32, u32)>>>::default();
    let tell = told.clone();
    let cache = Cache::<u32, u32>::builder()
        .capacity(2)
        .eviction_listener(move |key, value| tell.lock().unwrap().push((**key, **value)))
        .build()
        .unwrap();
    for key in 1..=3 {
        cache.put(key, key * 10).unwrap();
    }
    cache.put(3, 31).unwrap();
    cache.remove(&3).unwrap();
    cache.invalidate(&2);
    cache.clear().unwrap();
    assert_eq!(*told.lock().unwrap(), [(1, 10)]);
    let keys = cache.get_or_load_with(&4, |_| Ok(Some(40))).unwrap();
    assert_eq!(keys.as_deref(), Some(&40));
    cache.put(5, 50).unwrap();
    assert!(cache.get_or_load_with(&6, |_| Ok(Some(60))).is_ok());
    assert_eq!(*told.lock().unwrap(), [(1, 10), (4, 40)]);
}

#[test]
fn a_listener_may_call_the_cache_and_panic() {
    let cell = Arc::<Mutex<Option<Arc<Cache<u32, u32>>>>>::default();
    let inner = cell.clone();
    let cache = Cache::<u32, u32>::builder()
        .capacity(1)
        .eviction_listener(move |key, _| {
            let cache = inner.lock().unwrap().clone().unwrap();
            assert!(!cache.contains_key(&**key).unwrap());
            assert!(**key != 2, "two is left");
        })
        .build();
    let cache = Arc::new(cache.unwrap());
    *cell.lock().unwrap() = Some(cache.clone());
    cache.put(1, 1).unwrap();
    cache.put(2, 2).unwrap();
    assert!(catch_unwind(AssertUnwindSafe(|| cache.put(3, 3))).is_err());
    assert!(cache.contains_key(&3).unwrap() && cache.agrees());
    *cell.lock().unwrap() = None;
}

#[test]
fn what_has_a_debug_form() {
    let (_store, cache) = cache_of(1, 4);
    let shown = [
        format!("{:?}", cache.begin("a".into(), &Op::Get)),
        format!("{:?}", Op::Put(Arc::new(1))),
        format!("{:?}", cache.get("a").map(|_| text("1"))),
        format!("{cache:?}"),
    ];
    assert_eq!(shown[..2], ["Ok(Load)", "Put"]);
    assert!(shown[3].starts_with("Cache { stripes: 1,"), "{shown:?}");
}
