//! The cache of bytes.
use cadwrelch::{BytesCache, Error, Loader, NoLoader, Writer};
use std::collections::HashMap;
use std::panic::{AssertUnwindSafe, catch_unwind};
use std::sync::atomic::{AtomicUsize, Ordering::SeqCst};
use std::sync::{Arc, Barrier, Mutex, OnceLock, Weak};
use std::thread::{scope, yield_now};

#[derive(Default)]
struct Held(Mutex<HashMap<Vec<u8>, Vec<u8>>>);

impl Writer<[u8], [u8]> for &Held {
    type Error = &'static str;

    fn write(&self, key: &[u8], value: &[u8]) -> Result<(), &'static str> {
        match key {
            b"bad" => Err("no write"),
            b"worse" => panic!("no write"),
            _ => {
                self.0.lock().unwrap().insert(key.into(), value.into());
                Ok(())
            }
        }
    }

    fn delete(&self, key: &[u8]) -> Result<(), &'static str> {
        self.0.lock().unwrap().remove(key);
        Ok(())
    }
}

impl Loader<[u8], Vec<u8>> for &Held {
    type Error = &'static str;

    fn load(&self, key: &[u8]) -> Result<Option<Vec<u8>>, &'static str> {
        match key {
            b"bad" => Err("no load"),
            b"worse" => panic!("no load"),
            b"long" => Ok(Some(vec![0; 257])),
            _ => Ok(self.0.lock().unwrap().get(key).cloned()),
        }
    }
}

fn cache_of(held: &Held) -> BytesCache<&Held, &Held> {
    BytesCache::builder()
        .stripes(2)
        .capacity(4)
        .loader(held)
        .writer(held)
        .build()
        .unwrap()
}

#[test]
fn each_operation() {
    let held = Held::default();
    let cache = cache_of(&held);
    let some = |bytes: &[u8]| Some(bytes.to_vec());
    assert_eq!(cache.get(b"a").unwrap(), None);
    cache.put(b"a", b"1").unwrap();
    assert_eq!(cache.get(b"a").unwrap(), some(b"1"));
    assert!(cache.contains_key(b"a").unwrap());
    assert_eq!(cache.get_and_put(b"a", b"2").unwrap(), some(b"1"));
    assert!(!cache.put_if_absent(b"a", b"3").unwrap());
    assert!(cache.replace(b"a", b"3").unwrap());
    assert!(cache.replace_if(b"a", b"3", b"").unwrap());
    assert!(!cache.remove_if(b"a", b"3").unwrap());
    assert_eq!(cache.get_and_replace(b"a", b"4").unwrap(), some(b""));
    assert_eq!(cache.entries().unwrap(), [(b"a".to_vec(), b"4".to_vec())]);
    assert_eq!(cache.get_and_remove(b"a").unwrap(), some(b"4"));
    assert!(!cache.remove(b"a").unwrap());
    assert!(held.0.lock().unwrap().is_empty());
    cache.put(b"a", &[7; 256]).unwrap();
    cache.clear().unwrap();
    assert!(!cache.contains_key(b"a").unwrap());
    assert_eq!(cache.get(b"a").unwrap(), some(&[7; 256]));
    assert_eq!(cache.stats().unwrap().puts, 6);
}

#[test]
fn limits_of_keys_and_values() {
    let held = Held::default();
    let cache = cache_of(&held);
    assert!(matches!(cache.get(b""), Err(Error::Limits(_))));
    assert!(matches!(cache.get(&[1; 33]), Err(Error::Limits(_))));
    assert!(matches!(cache.put(b"a", &[1; 257]), Err(Error::Limits(_))));
    assert!(matches!(cache.get(b"long"), Err(Error::Limits(_))));
    assert!(cache.get(&[1; 32]).is_ok());
    assert!(BytesCache::builder().stripes(0).build().is_err());
    assert!(BytesCache::builder().stripes(65).build().is_err());
}

#[test]
fn failures_and_panics() {
    let held = Held::default();
    let cache = cache_of(&held);
    for _ in 0..2 {
        assert!(matches!(cache.get(b"bad"), Err(Error::Loader(error, _)) if *error == "no load"));
        assert!(matches!(
            cache.put(b"bad", b"1"),
            Err(Error::Writer("no write", _))
        ));
        assert!(catch_unwind(AssertUnwindSafe(|| cache.get(b"worse"))).is_err());
        assert!(catch_unwind(AssertUnwindSafe(|| cache.put(b"worse", b"1"))).is_err());
    }
    assert!(cache.entries().unwrap().is_empty());
    cache.close();
    assert!(matches!(cache.get(b"a"), Err(Error::Closed(_))));
    assert!(matches!(cache.stats(), Err(Error::Closed(_))));
}

/// A loader that asks the cache for the very key that it is asked for.
struct Own(OnceLock<Weak<BytesCache<Own>>>);

impl Loader<[u8], Vec<u8>> for Own {
    type Error = String;

    fn load(&self, key: &[u8]) -> Result<Option<Vec<u8>>, String> {
        let cache = self
            .0
            .get()
            .and_then(Weak::upgrade)
            .expect("the cache is there");
        let joined = cache.get(key).map_err(|error| format!("{error:?}"));
        let put = cache.put(key, b"1").map_err(|error| format!("{error:?}"));
        assert_eq!(put, Err("WouldDeadlock(At)".to_string()));
        joined
    }
}

#[test]
fn a_loader_that_waits_for_itself_is_told() {
    let cache = Arc::new(
        BytesCache::builder()
            .loader(Own(OnceLock::new()))
            .build()
            .unwrap(),
    );
    cache.loader().0.set(Arc::downgrade(&cache)).unwrap();
    for _ in 0..100 {
        assert!(
            matches!(cache.get(b"a"), Err(Error::Loader(error, _)) if *error == "WouldDeadlock(At)")
        );
    }
    assert!(cache.entries().unwrap().is_empty());
}

#[test]
fn joined_calls_make_one_load() {
    let loads = AtomicUsize::new(0);
    let gate = Barrier::new(2);
    let loader = |key: &[u8]| {
        loads.fetch_add(1, SeqCst);
        gate.wait();
        gate.wait();
        Err::<Option<Vec<u8>>, _>(key.len())
    };
    let cache = BytesCache::builder().loader(loader).build().unwrap();
    scope(|threads| {
        let first = threads.spawn(|| cache.get(b"key"));
        gate.wait();
        let others: Vec<_> = (0..4)
            .map(|_| threads.spawn(|| cache.get(b"key")))
            .collect();
        while cache.waiting() < 4 {
            yield_now();
        }
        gate.wait();
        for call in others.into_iter().chain([first]) {
            let reply = call.join().unwrap();
            assert!(matches!(reply, Err(Error::Loader(length, _)) if *length == 3));
        }
    });
    assert_eq!(loads.load(SeqCst), 1);
}

#[test]
fn a_writer_without_a_loader() {
    let held = Held::default();
    let cache = BytesCache::builder().writer(&held).build().unwrap();
    cache.put(b"a", b"1").unwrap();
    cache.clear().unwrap();
    assert_eq!(cache.get(b"a").unwrap(), None);
    let _: &BytesCache<NoLoader, &Held> = &cache;
}
