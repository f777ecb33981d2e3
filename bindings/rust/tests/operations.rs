//! What the table of cases can't say: panics, errors as values, threads, and a cache that is closed.
mod common;
use cadwrelch::{Cache, Error, Op};
use common::{Mode, Texts, cache_of, text};
use std::hash::{Hash, Hasher};
use std::panic::{AssertUnwindSafe, RefUnwindSafe, UnwindSafe, catch_unwind};
use std::sync::atomic::{AtomicBool, Ordering::SeqCst};

fn own(value: &str) -> String {
    value.to_string()
}

#[test]
fn a_panic_goes_on_and_leaves_no_key_reserved() {
    let (store, cache) = cache_of(1, 8);
    cache.put(own("a"), own("1")).unwrap();
    *store.writing.lock().unwrap() = Mode::Panics;
    *store.loading.lock().unwrap() = Mode::Panics;
    assert!(catch_unwind(AssertUnwindSafe(|| cache.put(own("a"), own("2")))).is_err());
    assert!(catch_unwind(AssertUnwindSafe(|| cache.remove("a"))).is_err());
    assert!(catch_unwind(AssertUnwindSafe(|| cache.get("b"))).is_err());
    assert!(cache.agrees());
    *store.writing.lock().unwrap() = Mode::Works;
    assert_eq!(cache.get("a").unwrap(), text("1"));
    cache.put(own("a"), own("3")).unwrap();
    assert_eq!(store.get("a").unwrap(), "3");
}

/// A key whose comparison panics if it is told to. All have one hash.
#[derive(Clone, Debug)]
struct Odd(u32);

static PANICS: AtomicBool = AtomicBool::new(false);

impl PartialEq for Odd {
    fn eq(&self, other: &Odd) -> bool {
        assert!(!PANICS.load(SeqCst), "no comparison");
        self.0 == other.0
    }
}

impl Eq for Odd {}

impl Hash for Odd {
    fn hash<H: Hasher>(&self, state: &mut H) {
        state.write_u32(0);
    }
}

#[test]
fn a_comparison_of_keys_that_panics_has_done_nothing() {
    let cache = Cache::<Odd, u32>::builder().capacity(4).build().unwrap();
    for key in 0..3 {
        cache.put(Odd(key), key).unwrap();
    }
    let calls: [fn(&Cache<Odd, u32>); 5] = [
        |cache| drop(cache.get(&Odd(1))),
        |cache| drop(cache.put(Odd(1), 9)),
        |cache| drop(cache.invoke(Odd(1), |_entry| Ok(()))),
        |cache| drop(cache.get_all([Odd(1), Odd(5)])),
        |cache| cache.invalidate(&Odd(1)),
    ];
    PANICS.store(true, SeqCst);
    for call in calls {
        assert!(catch_unwind(AssertUnwindSafe(|| call(&cache))).is_err());
    }
    PANICS.store(false, SeqCst);
    assert_eq!(cache.get(&Odd(1)).unwrap().as_deref(), Some(&1));
    assert!(cache.len().unwrap() == 3 && cache.agrees());
}

#[test]
fn without_loader_and_writer_it_is_a_map() {
    let cache = Cache::<u32, u32>::builder().stripes(2).build().unwrap();
    assert_eq!(cache.get(&1).unwrap(), None);
    cache.put(1, 2u32).unwrap();
    assert_eq!(cache.get(&1).unwrap().as_deref(), Some(&2));
    assert!(cache.remove(&1).unwrap());
}

/// What threads share, and what a panic may pass.
#[test]
fn a_cache_is_shared_by_threads_and_passed_by_panics() {
    fn shared<T: Send + Sync + UnwindSafe + RefUnwindSafe>(_: &T) {}
    fn sent<T: Send>(_: &T) {}
    let (_store, cache) = cache_of(1, 8);
    shared(&cache);
    shared(&Cache::<u32, u32>::builder().build().unwrap());
    shared(&cadwrelch::BytesCache::builder().build().unwrap());
    for op in [Op::Get, Op::Invoke, Op::Remove] {
        sent(&cache.begin(own("a"), &op).unwrap());
    }
}

/// What each mutation is answered.
fn mutations(
    cache: &Texts,
) -> Vec<Result<(), cadwrelch::CacheError<String, String, common::Outside, common::Outside>>> {
    vec![
        cache.put(own("a"), own("9")),
        cache.get_and_put(own("a"), own("9")).map(drop),
        cache.put_if_absent(own("b"), own("9")).map(drop),
        cache.remove("a").map(drop),
        cache.remove_if("a", own("1")).map(drop),
        cache.get_and_remove("a").map(drop),
        cache.replace(own("a"), own("9")).map(drop),
        cache.replace_if(own("a"), own("1"), own("9")).map(drop),
        cache.get_and_replace(own("a"), own("9")).map(drop),
    ]
}

#[test]
fn a_closed_cache_refuses_all_calls() {
    let (_store, cache) = cache_of(2, 8);
    cache.put(own("a"), own("1")).unwrap();
    cache.close();
    assert!(matches!(cache.get("a"), Err(Error::Closed(_))));
    assert!(matches!(cache.contains_key("a"), Err(Error::Closed(_))));
    assert!(
        mutations(&cache)
            .iter()
            .all(|it| matches!(it, Err(Error::Closed(_))))
    );
    assert!(matches!(cache.stats(), Err(Error::Closed(_))));
    assert!(matches!(cache.keys(), Err(Error::Closed(_))));
    assert!(matches!(cache.clear(), Err(Error::Closed(_))));
    assert!(matches!(cache.get_all([own("a")]), Err(it) if matches!(it.error, Error::Closed(_))));
    cache.close();
    assert!(cache.agrees());
}

mod processors {
    use super::*;

    #[test]
    fn its_failure_changes_nothing() {
        let (store, cache) = cache_of(1, 8);
        cache.put(own("a"), own("1")).unwrap();
        let failed = cache.invoke(own("a"), |entry| {
            entry.set(own("2"));
            Err::<(), _>(Error::processor("no"))
        });
        assert!(matches!(failed, Err(Error::Processor(error, _)) if error.to_string() == "no"));
        let panicked = AssertUnwindSafe(|| {
            cache.invoke::<()>(own("a"), |entry| {
                entry.set(own("2"));
                panic!("no")
            })
        });
        assert!(catch_unwind(panicked).is_err());
        assert_eq!(cache.get("a").unwrap(), text("1"));
        assert_eq!(store.get("a").unwrap(), "1");
        assert!(cache.agrees());
    }

    #[test]
    fn a_failed_load_is_the_reply_whatever_it_does() {
        let (store, cache) = cache_of(1, 8);
        *store.loading.lock().unwrap() = Mode::Fails;
        let failed = cache.invoke(own("a"), |entry| {
            assert!(entry.value().is_err());
            assert!(entry.value().is_err());
            entry.set(own("2"));
            Ok(())
        });
        assert!(matches!(failed, Err(Error::Loader(..))));
        assert_eq!(store.loads.load(SeqCst), 1);
        assert!(!cache.contains_key("a").unwrap());
        *store.loading.lock().unwrap() = Mode::Panics;
        let panicked = AssertUnwindSafe(|| cache.invoke(own("a"), |entry| entry.value()));
        assert!(catch_unwind(panicked).is_err());
        assert!(cache.agrees());
    }

    #[test]
    fn a_failed_write_changes_nothing() {
        let (store, cache) = cache_of(1, 8);
        for mode in [Mode::Fails, Mode::Panics] {
            *store.writing.lock().unwrap() = mode;
            let result = catch_unwind(AssertUnwindSafe(|| {
                cache.invoke(own("a"), |entry| {
                    entry.set(own("2"));
                    Ok(())
                })
            }));
            assert_eq!(result.is_err(), mode == Mode::Panics);
            assert!(!matches!(result, Ok(Ok(()))));
            assert!(!cache.contains_key("a").unwrap());
            assert!(cache.agrees());
        }
    }
}
