//! Calls of many keys: what the table of cases can't say.
mod common;
use cadwrelch::{Cache, Error, Found, Loader, Unwritten, Writer};
use common::{Broken, Mode, Store, cache_of, text};
use std::collections::HashMap;
use std::sync::atomic::{AtomicUsize, Ordering::SeqCst};
use std::sync::{Arc, Mutex};

fn keys(names: &[&str]) -> Vec<String> {
    names.iter().map(|name| name.to_string()).collect()
}

#[test]
fn a_key_that_is_put_twice_has_its_last_value() {
    let (store, cache) = cache_of(1, 8);
    let entries = [("a", "1"), ("b", "2"), ("a", "3")];
    cache
        .put_all(entries.map(|(key, value)| (key.to_string(), value.to_string())))
        .unwrap();
    assert_eq!(store.get("a").unwrap(), "3");
    assert_eq!(cache.get("a").unwrap(), text("3"));
}

/// A store that is asked for many keys at once, and refuses to change odd ones.
#[derive(Default)]
struct Batches {
    held: Mutex<HashMap<u32, u32>>,
    calls: AtomicUsize,
}

#[derive(Clone, Default)]
struct ByBatch(Arc<Batches>);

impl Loader<u32, u32> for ByBatch {
    type Error = Broken;

    fn load(&self, _key: &u32) -> Result<Option<u32>, Broken> {
        panic!("it is asked for many keys")
    }

    fn load_all(&self, keys: &[&u32]) -> Result<Vec<Found<u32, Broken>>, Broken> {
        self.0.calls.fetch_add(1, SeqCst);
        let held = self.0.held.lock().unwrap();
        Ok(keys.iter().map(|key| Ok(held.get(key).copied())).collect())
    }
}

impl ByBatch {
    fn odd(places: impl Iterator<Item = u32>) -> Result<(), Unwritten<Broken>> {
        let places: Vec<usize> = places
            .enumerate()
            .filter(|(_, key)| key % 2 == 1)
            .map(|(place, _)| place)
            .collect();
        match places.is_empty() {
            true => Ok(()),
            false => Err(Unwritten {
                error: Broken("odd"),
                places,
            }),
        }
    }
}

impl Writer<u32, u32> for ByBatch {
    type Error = Broken;

    fn write(&self, _key: &u32, _value: &u32) -> Result<(), Broken> {
        panic!("it is asked for many keys")
    }

    fn delete(&self, _key: &u32) -> Result<(), Broken> {
        panic!("it is asked for many keys")
    }

    fn write_all(&self, entries: &[(&u32, &u32)]) -> Result<(), Unwritten<Broken>> {
        self.0.calls.fetch_add(1, SeqCst);
        let mut held = self.0.held.lock().unwrap();
        for (key, value) in entries.iter().filter(|(key, _)| **key % 2 == 0) {
            held.insert(**key, **value);
        }
        Self::odd(entries.iter().map(|(key, _)| **key))
    }

    fn delete_all(&self, keys: &[&u32]) -> Result<(), Unwritten<Broken>> {
        self.0.calls.fetch_add(1, SeqCst);
        let mut held = self.0.held.lock().unwrap();
        held.retain(|key, _| key % 2 == 1 || !keys.contains(&key));
        Self::odd(keys.iter().map(|key| **key))
    }
}

#[test]
fn a_round_asks_once_and_fails_in_part() {
    let outside = ByBatch::default();
    let cache = Cache::builder()
        .stripes(4)
        .loader(outside.clone())
        .writer(outside.clone())
        .build()
        .unwrap();
    let failed = cache.put_all((0..10).map(|i| (i, i * 10))).unwrap_err();
    assert!(matches!(failed.error, Error::Writer(Broken("odd"), _)));
    assert!(failed.failed.iter().all(|key| **key % 2 == 1) && failed.failed.len() == 5);
    assert_eq!(outside.0.calls.load(SeqCst), 1);
    outside.0.held.lock().unwrap().insert(1, 11);
    assert_eq!(cache.get_all(0..10).unwrap().len(), 6);
    assert_eq!(outside.0.calls.load(SeqCst), 2);
    let failed = cache.remove_all(0..10).unwrap_err();
    assert_eq!(failed.failed.len(), 5);
    assert_eq!(*outside.0.held.lock().unwrap(), HashMap::from([(1, 11)]));
    assert_eq!(*cache.get_all([1]).unwrap()[&1], 11);
    assert!(cache.agrees());
}

#[test]
fn a_call_that_is_stopped_says_what_failed_first() {
    let (store, cache) = cache_of(1, 8);
    *store.writing.lock().unwrap() = Mode::Fails;
    let processed = cache.invoke("b".to_string(), |_entry| {
        // This thread has reserved b: its own call would wait for it.
        let entries = ["a", "b"].map(|key| (key.to_string(), "1".to_string()));
        let failed = cache.put_all(entries).unwrap_err();
        assert!(matches!(failed.error, Error::Writer(Broken("no write"), _)));
        assert_eq!(failed.failed.len(), 2);
        Ok(())
    });
    assert!(processed.is_ok());
    assert!(cache.agrees());
}

#[test]
fn a_panic_leaves_no_key_reserved() {
    let (store, cache) = cache_of(2, 8);
    *store.loading.lock().unwrap() = Mode::Panics;
    *store.writing.lock().unwrap() = Mode::Panics;
    let calls = std::panic::AssertUnwindSafe(&cache);
    assert!(std::panic::catch_unwind(|| calls.get_all(keys(&["a", "b"]))).is_err());
    assert!(std::panic::catch_unwind(|| calls.remove_all(keys(&["a", "b"]))).is_err());
    assert!(cache.agrees());
    let _: &Store = &store;
}

#[test]
fn a_bad_key_spoils_no_other() {
    let load = |key: &u32| match key {
        2 => Err(Broken("no load")),
        3 => Ok(None),
        _ => Ok(Some(key * 10)),
    };
    let cache = Cache::<u32, u32>::builder().loader(load).build().unwrap();
    let failed = cache.get_all([1, 2, 3, 4]).unwrap_err();
    assert!(matches!(&failed.error, Error::Loader(error, _) if **error == Broken("no load")));
    assert_eq!(failed.failed, [Arc::new(2)]);
    assert_eq!(
        failed.found,
        [(Arc::new(1), Arc::new(10)), (Arc::new(4), Arc::new(40))]
    );
    assert_eq!(cache.len().unwrap(), 2);
    let stopped = cache.load_all([5, 2, 6], true).unwrap_err();
    assert_eq!((stopped.failed.len(), stopped.found.len()), (1, 0));
    assert!(cache.contains_key(&6).unwrap() && cache.agrees());
}

#[test]
fn an_error_names_its_keys() {
    let load = |_: &String| Err::<Option<u32>, _>(Broken("no load"));
    let cache = Cache::<String, u32>::builder()
        .loader(load)
        .build()
        .unwrap();
    let text = |keys: &[&str]| {
        let keys = keys.iter().map(|key| key.to_string());
        cache.get_all(keys).unwrap_err().to_string()
    };
    assert_eq!(
        text(&["a"]),
        "a key failed (\"a\"): the loader failed: no load"
    );
    let long = "k".repeat(100);
    let named = format!("a key failed (\"{}..): the", &long[..79]);
    assert!(text(&[&long]).starts_with(&named));
    let five = text(&["a", "b", "c", "d", "e"]);
    assert!(five.starts_with("5 keys failed (\"a\", \"b\", \"c\", and 2 more): the"));
}

#[test]
fn a_processor_of_many_keys_that_panics_leaves_all_as_it_was() {
    let (store, cache) = cache_of(2, 8);
    cache.put("b".to_string(), "1".to_string()).unwrap();
    let calls = std::panic::AssertUnwindSafe(|| {
        cache.invoke_all(keys(&["a", "b", "c"]), |entry| {
            assert!(entry.key() != "c", "no third");
            entry.set("2".to_string());
            Ok(())
        })
    });
    assert!(std::panic::catch_unwind(calls).is_err());
    assert_eq!(
        (store.get("a"), store.get("b").as_deref()),
        (None, Some("1"))
    );
    assert_eq!(cache.len().unwrap(), 1);
    assert!(cache.agrees());
    cache.close();
    let replies = cache.invoke_all(keys(&["a", "a"]), |_entry| Ok(()));
    assert_eq!(replies.len(), 2);
    for (_, reply) in replies {
        assert!(matches!(reply, Err(error) if matches!(*error, Error::Closed(_))));
    }
}

#[test]
fn a_key_that_is_named_twice_is_processed_twice() {
    let (store, cache) = cache_of(2, 8);
    let replies = cache.invoke_all(keys(&["a", "b", "a"]), |entry| {
        let before = entry.value()?.map_or(0, |it| it.len());
        match before {
            0 => entry.set("x".to_string()),
            _ => entry.remove(),
        }
        Ok(before)
    });
    let replies: Vec<usize> = replies.into_iter().map(|it| it.1.unwrap()).collect();
    assert_eq!(replies, [0, 0, 1]);
    assert_eq!((store.get("a"), store.get("b").is_some()), (None, true));
    assert!(cache.agrees());
}

/// What the writer has written takes effect at each key, whatever panics at one of them.
#[test]
fn a_listener_that_panics_spoils_no_key_that_was_written() {
    let store = Arc::new(Store::default());
    let cache = Cache::builder()
        .capacity(2)
        .eviction_listener(|key: &Arc<String>, _| panic!("{key} is gone"))
        .store(store.clone())
        .build()
        .unwrap();
    for key in ["x", "c"] {
        cache.put(key.to_string(), "0".to_string()).unwrap();
    }
    let calls = std::panic::AssertUnwindSafe(|| {
        cache.invoke_all(keys(&["a", "c"]), |entry| {
            entry.set("1".to_string());
            Ok(())
        })
    });
    assert!(std::panic::catch_unwind(calls).is_err());
    for key in ["a", "c"] {
        assert_eq!(store.get(key).as_deref(), Some("1"));
        assert_eq!(cache.get(key).unwrap(), text("1"), "{key}");
    }
    assert!(cache.agrees());
}
