//! Calls in phases: withdrawn, cancelled, joined and awaited.
mod common;
use cadwrelch::call::{Begun, Change, Processing};
use cadwrelch::{Cache, Error, Expected, Op, Reply};
use common::{Broken, Texts, cache_of, text};
use std::future::Future;
use std::panic::{AssertUnwindSafe, catch_unwind};
use std::pin::pin;
use std::sync::Arc;
use std::sync::atomic::{AtomicUsize, Ordering::SeqCst};
use std::sync::mpsc::channel;
use std::task::{Context, Poll, Wake, Waker};

#[derive(Default)]
struct Counted(AtomicUsize);

impl Wake for Counted {
    fn wake(self: Arc<Self>) {
        self.0.fetch_add(1, SeqCst);
    }
}

fn begin<'c>(
    cache: &'c Texts,
    op: &Op<String>,
) -> cadwrelch::CacheBegun<'c, String, String, common::Outside, common::Outside> {
    cache.begin("a".to_string(), op).unwrap()
}

fn put() -> Op<String> {
    Op::Put(Arc::new("1".to_string()))
}

#[test]
fn a_ticket_that_is_dropped_is_withdrawn() {
    let (_store, cache) = cache_of(1, 8);
    for op in [Op::Get, put(), Op::Remove, Op::Invoke, Op::Load] {
        let begun = begin(&cache, &op);
        assert!(!matches!(begun, Begun::Done(_)));
        assert!(matches!(begin(&cache, &Op::Remove), Begun::Busy(_)));
        drop(begun);
        assert!(cache.agrees());
    }
    assert_eq!(cache.stats().unwrap(), cadwrelch::Statistics::default());
}

#[test]
fn joiners_of_a_load_that_a_panic_drops_fail() {
    let (_store, cache) = cache_of(1, 8);
    let Begun::Load(ticket) = begin(&cache, &Op::Get) else {
        panic!("it loads")
    };
    let Begun::Joined(join) = begin(&cache, &Op::Get) else {
        panic!("it joins")
    };
    let panics = AssertUnwindSafe(|| {
        let _asked = ticket.ask();
        panic!("the store is gone")
    });
    assert!(catch_unwind(panics).is_err());
    assert!(matches!(join.wait(), Err(Error::LoaderPanicked(_))));
    assert!(cache.agrees());
}

#[test]
fn a_call_that_has_asked_and_is_dropped_has_failed() {
    let (_store, cache) = cache_of(1, 8);
    let Begun::Load(ticket) = begin(&cache, &Op::Get) else {
        panic!("it loads")
    };
    let Begun::Joined(join) = begin(&cache, &Op::Get) else {
        panic!("it joins")
    };
    drop(ticket.ask());
    assert!(matches!(join.wait(), Ok(None)), "it begins anew");
    let Begun::Write(ticket) = begin(&cache, &put()) else {
        panic!("it writes")
    };
    drop(ticket.ask());
    let Begun::Process(ticket) = begin(&cache, &Op::Invoke) else {
        panic!("it processes")
    };
    let mut processing = ticket.ask();
    processing.set("2".to_string());
    drop(processing);
    assert!(!cache.contains_key("a").unwrap());
    assert!(cache.agrees());
}

/// A mistake of who makes the phases of a processor's call.
type Mistake = fn(Processing<'_, String, String, Broken, Broken>);

/// A change, with nobody asked for it; and the other way round.
const MISTAKES: [Mistake; 4] = [
    |mut it| {
        it.set("2".to_string());
        let _ = it.commit(None);
    },
    |it| drop(it.commit(Some(Ok(())))),
    |mut it| it.start_write(),
    |mut it| {
        it.remove();
        it.start_load();
    },
];

#[test]
fn a_mistake_panics_and_fails_its_call_alone() {
    let (_store, cache) = cache_of(1, 8);
    for mistake in MISTAKES {
        let Begun::Process(ticket) = begin(&cache, &Op::Invoke) else {
            panic!("it processes")
        };
        let mistaken = AssertUnwindSafe(|| mistake(ticket.ask()));
        assert!(catch_unwind(mistaken).is_err());
        assert!(!cache.contains_key("a").unwrap());
    }
    assert!(cache.agrees());
}

#[test]
fn a_processor_that_goes_on_after_its_loaders_panic_has_failed() {
    let (store, cache) = cache_of(1, 8);
    *store.loading.lock().unwrap() = common::Mode::Panics;
    let reply = cache.invoke("a".to_string(), |entry| {
        assert!(catch_unwind(AssertUnwindSafe(|| entry.value())).is_err());
        assert!(matches!(entry.value(), Err(Error::LoaderPanicked(_))));
        entry.set("1".to_string());
        entry.remove();
        entry.set_for("2".to_string(), std::time::Duration::MAX);
        Ok(())
    });
    assert!(matches!(reply, Err(Error::LoaderPanicked(_))));
    let Begun::Process(ticket) = begin(&cache, &Op::Invoke) else {
        panic!("it processes")
    };
    let mut processing = ticket.ask();
    processing.start_load();
    assert!(!processing.must_load());
    processing.set("1".to_string());
    assert_eq!(processing.change(), None);
    assert!(matches!(
        processing.commit(None),
        Err(Error::LoaderPanicked(_))
    ));
    assert_eq!(
        (store.loads.load(SeqCst), store.writes.load(SeqCst)),
        (1, 0)
    );
    assert!(!cache.contains_key("a").unwrap());
    assert!(cache.agrees());
}

#[test]
fn joins_that_are_dropped_hold_no_other_key() {
    let outside = common::Outside::default();
    let builder = Cache::builder().stripes(1).capacity(8);
    let cache: Texts = builder
        .loader(outside.clone())
        .writer(outside)
        .build()
        .unwrap();
    let Begun::Load(slow) = begin(&cache, &Op::Get) else {
        panic!("it loads")
    };
    for _ in 0..64 {
        assert!(matches!(begin(&cache, &Op::Get), Begun::Joined(_)));
    }
    for i in 0..63 {
        cache.put(format!("key{i}"), "1".to_string()).unwrap();
    }
    drop(slow);
    assert!(cache.agrees());
}

#[test]
fn a_joiner_of_a_withdrawn_load_begins_anew() {
    let (_store, cache) = cache_of(1, 8);
    let Begun::Load(ticket) = begin(&cache, &Op::Get) else {
        panic!("it loads")
    };
    let Begun::Joined(join) = begin(&cache, &Op::Get) else {
        panic!("it joins")
    };
    drop(ticket);
    assert!(matches!(join.wait(), Ok(None)));
    assert!(matches!(begin(&cache, &Op::Get), Begun::Load(_)));
    assert!(cache.agrees());
}

#[test]
fn a_join_that_is_dropped_keeps_nothing() {
    let (_store, cache) = cache_of(1, 8);
    for _ in 0..100 {
        let Begun::Load(ticket) = begin(&cache, &Op::Get) else {
            panic!("it loads")
        };
        let Begun::Joined(early) = begin(&cache, &Op::Get) else {
            panic!("it joins")
        };
        let Begun::Joined(late) = begin(&cache, &Op::Get) else {
            panic!("it joins")
        };
        drop(early);
        ticket.ask().commit(Ok(None)).unwrap();
        drop(late);
        assert!(cache.agrees());
    }
}

#[test]
fn futures_are_woken_when_the_key_is_free() {
    let (_store, cache) = cache_of(1, 8);
    let counted = Arc::new(Counted::default());
    let waker = Waker::from(counted.clone());
    let mut context = Context::from_waker(&waker);
    let Begun::Load(ticket) = begin(&cache, &Op::Get) else {
        panic!("it loads")
    };
    let asked = ticket.ask();
    assert_eq!(asked.key(), "a");
    let Begun::Joined(join) = begin(&cache, &Op::Get) else {
        panic!("it joins")
    };
    let Begun::Busy(busy) = begin(&cache, &Op::Remove) else {
        panic!("it is busy")
    };
    let (mut join, mut busy) = (pin!(join), pin!(busy));
    for _ in 0..2 {
        assert!(join.as_mut().poll(&mut context).is_pending());
        assert!(busy.as_mut().poll(&mut context).is_pending());
    }
    asked.commit(Ok(Some("1".to_string()))).unwrap();
    assert_eq!(counted.0.load(SeqCst), 2);
    assert!(busy.as_mut().poll(&mut context).is_ready());
    match join.as_mut().poll(&mut context) {
        Poll::Ready(Ok(Some(Reply::Value(value)))) => assert_eq!(value, text("1")),
        _ => panic!("it has its answer"),
    }
}

#[test]
fn a_future_that_is_dropped_leaves_no_waker() {
    let (_store, cache) = cache_of(1, 8);
    let Begun::Load(_ticket) = begin(&cache, &Op::Get) else {
        panic!("it loads")
    };
    let counted = Arc::new(Counted::default());
    let waker = Waker::from(counted.clone());
    let mut context = Context::from_waker(&waker);
    for _ in 0..3 {
        let Begun::Joined(join) = begin(&cache, &Op::Get) else {
            panic!("it joins")
        };
        let Begun::Busy(busy) = begin(&cache, &Op::Remove) else {
            panic!("it is busy")
        };
        let (mut join, mut busy) = (Box::pin(join), Box::pin(busy));
        for _ in 0..2 {
            assert!(join.as_mut().poll(&mut context).is_pending());
            assert!(busy.as_mut().poll(&mut context).is_pending());
        }
        assert_eq!(Arc::strong_count(&counted), 4);
        drop((join, busy));
        assert_eq!(Arc::strong_count(&counted), 2);
    }
}

#[test]
fn a_joiner_has_its_answer_whatever_happens_meanwhile() {
    let (_store, cache) = cache_of(1, 1);
    let Begun::Load(ticket) = begin(&cache, &Op::Get) else {
        panic!("it loads")
    };
    let Begun::Joined(join) = begin(&cache, &Op::Get) else {
        panic!("it joins")
    };
    ticket.ask().commit(Ok(Some("1".to_string()))).unwrap();
    cache.put("a".to_string(), "2".to_string()).unwrap();
    cache.put("b".to_string(), "3".to_string()).unwrap();
    match join.wait() {
        Ok(Some(Reply::Value(value))) => assert_eq!(value, text("1")),
        _ => panic!("it has its answer"),
    }
    assert!(cache.agrees());
}

#[test]
fn a_write_says_what_is_to_be_done() {
    let (_store, cache) = cache_of(1, 8);
    let Begun::Write(ticket) = begin(&cache, &put()) else {
        panic!("it writes")
    };
    let asked = ticket.ask();
    assert_eq!(asked.change(), Change::Write(&"1".to_string()));
    assert!(matches!(asked.commit(Ok(())), Ok(Reply::Unit)));
    let old = Expected::equal_to("1".to_string());
    let Begun::Write(ticket) = begin(&cache, &Op::RemoveIf(old)) else {
        panic!("it deletes")
    };
    let asked = ticket.ask();
    assert_eq!(asked.change(), Change::Delete);
    assert!(matches!(asked.commit(Ok(())), Ok(Reply::Flag(true))));
    let old = Expected::equal_to("1".to_string());
    assert!(matches!(
        begin(&cache, &Op::RemoveIf(old)),
        Begun::Done(Reply::Flag(false))
    ));
    assert!(cache.agrees());
}

#[test]
fn a_stripe_has_room_for_64_reservations_and_64_joins() {
    let outside = common::Outside::default();
    let builder = Cache::builder().stripes(1).capacity(8).history(300);
    let cache: Texts = builder
        .loader(outside.clone())
        .writer(outside)
        .build()
        .unwrap();
    let key = |i: usize| format!("key{i}");
    let mut tickets: Vec<_> = (0..64)
        .map(|i| cache.begin(key(i), &Op::Get).unwrap())
        .collect();
    assert!(tickets.iter().all(|it| matches!(it, Begun::Load(_))));
    let Begun::Busy(room) = cache.begin(key(64), &Op::Get).unwrap() else {
        panic!("it is full")
    };
    let joins: Vec<_> = (0..64)
        .map(|_| cache.begin(key(0), &Op::Get).unwrap())
        .collect();
    assert!(joins.iter().all(|it| matches!(it, Begun::Joined(_))));
    assert!(matches!(
        cache.begin(key(0), &Op::Get).unwrap(),
        Begun::Busy(_)
    ));
    tickets.pop();
    room.wait::<common::Broken>().unwrap();
    assert!(matches!(
        cache.begin(key(64), &Op::Get).unwrap(),
        Begun::Load(_)
    ));
    drop(tickets);
    drop(joins);
    assert!(cache.agrees());
}

#[test]
fn a_cache_that_is_closed_meanwhile_ends_its_calls() {
    let (_store, cache) = cache_of(1, 8);
    let Begun::Load(ticket) = begin(&cache, &Op::Get) else {
        panic!("it loads")
    };
    let Begun::Joined(join) = begin(&cache, &Op::Get) else {
        panic!("it joins")
    };
    cache.close();
    ticket.ask().commit(Ok(Some("1".to_string()))).unwrap();
    assert!(matches!(join.wait(), Ok(Some(Reply::Value(Some(_))))));
    assert!(cache.agrees());
}

/// A call in phases may be ended by any thread: who waits for it is not told that it would wait for itself.
#[test]
fn a_call_that_has_moved_is_waited_for() {
    let (_store, cache) = cache_of(1, 8);
    for op in [Op::Get, Op::Invoke] {
        let begun = begin(&cache, &op);
        let (cache, (tell, told)) = (&cache, channel());
        std::thread::scope(|threads| {
            threads.spawn(move || {
                let _moved = begun;
                // Until the call below waits, or has failed.
                while cache.waiting() == 0 && told.try_recv().is_err() {
                    std::thread::yield_now();
                }
            });
            let got = cache.get("a");
            let _ = tell.send(());
            assert!(matches!(got, Ok(None)), "{got:?}");
        });
    }
}
