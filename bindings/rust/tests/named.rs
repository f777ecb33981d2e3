//! Errors name the key and the cache.
mod common;
use cadwrelch::call::{Begun, Change};
use cadwrelch::{Builder, BytesCache, Cache, Error, Op};
use common::{Mode, Outside, Store};
use std::error::Error as _;
use std::fmt;
use std::panic::{AssertUnwindSafe, catch_unwind};
use std::sync::atomic::{AtomicUsize, Ordering::SeqCst};
use std::sync::{Arc, mpsc};
use std::thread::{scope, yield_now};
use std::time::Duration;

type Built = Builder<String, String, Outside, Outside>;

/// A cache called pages before a store that fails.
fn pages(build: impl FnOnce(Built) -> Built) -> common::Texts {
    let store = Arc::new(Store::default());
    *store.loading.lock().unwrap() = Mode::Fails;
    *store.writing.lock().unwrap() = Mode::Fails;
    let builder = Cache::builder().capacity(4).store(store).name("pages");
    build(builder).build().unwrap()
}

fn a() -> String {
    "a".to_string()
}

fn text<T: fmt::Debug>(reply: Result<T, impl fmt::Display>) -> String {
    reply.unwrap_err().to_string()
}

const LOADER: &str = "the loader failed (key \"a\", cache pages): no load";
const WRITER: &str = "the writer failed (key \"a\", cache pages): no write";

#[test]
fn each_call_of_a_key_names_it_and_the_cache() {
    let cache = pages(|it| it);
    let error = cache.get("a").unwrap_err();
    assert_eq!(error.to_string(), LOADER);
    assert_eq!(error.source().unwrap().to_string(), "no load");
    let at = error.at();
    assert_eq!(at.to_string(), "key \"a\", cache pages");
    assert_eq!((at.key(), at.cache()), (Some("\"a\""), Some("pages")));
    assert!(format!("{error:?}").ends_with("At(key \"a\", cache pages))"));
    assert_eq!(
        text(cache.get_or_load_with("a", |_| Err(common::Broken("no load")))),
        LOADER
    );
    assert_eq!(text(cache.put(a(), a())), WRITER);
    assert_eq!(
        text(cache.remove("a")),
        "the writer failed (key \"a\", cache pages): no delete"
    );
    let set = |entry: &mut cadwrelch::Entry<'_, _, _, _, _>| {
        entry.set(a());
        Ok(())
    };
    assert_eq!(text(cache.invoke(a(), set)), WRITER);
    let fails = |why| cache.invoke(a(), move |_| Err::<(), _>(Error::processor(why)));
    assert_eq!(
        text(fails("why")),
        "the processor failed (key \"a\", cache pages): why"
    );
    let within = cache.invoke("b".to_string(), |_| fails("why"));
    assert_eq!(
        within.unwrap_err().at().key(),
        Some("\"a\""),
        "where it was made"
    );
    let loads = |entry: &mut cadwrelch::Entry<'_, _, _, _, _>| {
        assert_eq!(text(entry.value()), LOADER);
        Ok(())
    };
    assert_eq!(text(cache.invoke(a(), loads)), LOADER);
    let waits = cache.invoke(a(), |_| {
        let own = text(cache.get("a"));
        assert_eq!(
            own,
            "the call would wait for its own thread (key \"a\", cache pages)"
        );
        Ok(())
    });
    assert!(waits.is_ok());
    cache.close();
    assert_eq!(
        text(cache.get("a")),
        "the cache is closed (key \"a\", cache pages)"
    );
    assert_eq!(text(cache.keys()), "the cache is closed (cache pages)");
    assert!(
        text(cache.stats()).ends_with("(cache pages)")
            && text(cache.len()).ends_with("(cache pages)")
    );
}

#[test]
fn so_does_each_call_of_many_keys() {
    let cache = pages(|it| it);
    let keys = || ["a", "b"].map(str::to_string);
    let found = text(cache.get_all(keys()));
    assert_eq!(found, format!("2 keys failed (\"a\", \"b\"): {LOADER}"));
    let put = text(cache.put_all(keys().map(|key| (key, a()))));
    assert_eq!(
        put,
        "2 keys failed (\"a\", \"b\"): the writer failed (cache pages): no write"
    );
    for (key, reply) in cache.invoke_all(keys(), |_| Err::<(), _>(Error::processor("why"))) {
        let named = format!("the processor failed (key {key:?}, cache pages): why");
        assert_eq!(text(reply), named);
    }
    cache.close();
    assert_eq!(
        text(cache.remove_every()),
        "the cache is closed (cache pages)"
    );
}

#[test]
fn so_do_phases() {
    let cache = pages(|it| it);
    let begin = |op: Op<String>| cache.begin(a(), &op).unwrap();
    let Begun::Load(ticket) = begin(Op::Get) else {
        panic!("it loads")
    };
    let (Begun::Joined(join), Begun::Busy(_busy)) = (begin(Op::Get), begin(Op::Remove)) else {
        panic!("it joins, and waits")
    };
    let failed = ticket.ask().commit(Err(common::Broken("no load")));
    assert_eq!(
        (text(failed), text(join.wait())),
        (LOADER.to_string(), LOADER.to_string())
    );
    let Begun::Write(ticket) = begin(Op::Put(Arc::new(a()))) else {
        panic!("it writes")
    };
    let asked = ticket.ask();
    assert_eq!(asked.change(), Change::Write(&a()));
    assert_eq!(text(asked.commit(Err(common::Broken("no write")))), WRITER);
    let Begun::Process(ticket) = begin(Op::Invoke) else {
        panic!("it processes")
    };
    let failed = ticket.ask().fail("why");
    assert_eq!(
        failed.to_string(),
        "the processor failed (key \"a\", cache pages): why"
    );
}

#[test]
fn a_cache_without_a_name_names_nothing() {
    struct Key;
    let cache = Cache::<u32, u32>::builder().loader(|_: &u32| Err::<Option<u32>, _>("no"));
    assert_eq!(
        text(cache.build().unwrap().get(&1)),
        "the loader failed: no"
    );
    let error = Error::<&str, &str>::Closed(Default::default());
    assert_eq!((error.at().key(), error.at().cache()), (None, None));
    // Nor does a key of such a cache need `Debug`.
    let _ = Cache::<Key, Key>::builder().build();
}

#[test]
fn a_cache_of_bytes_names_them_as_text() {
    let load = |key: &[u8]| match key {
        [] | [_] => Err("no load"),
        _ => Ok(Some(vec![0; 257])),
    };
    let cache = BytesCache::builder()
        .name("bytes")
        .loader(load)
        .build()
        .unwrap();
    assert_eq!(
        text(cache.get(b"\xff")),
        "the loader failed (key b\"\\xff\", cache bytes): no load"
    );
    let limits =
        |key: &str| format!("a key has 1 to 32 bytes, a value 0 to 256 (key {key}, cache bytes)");
    assert_eq!(
        text(cache.get(b"ab")),
        limits("b\"ab\""),
        "its value is too long"
    );
    assert_eq!(text(cache.put(b"", b"")), limits("b\"\""));
    assert_eq!(
        text(cache.get(&[b'k'; 1000])),
        limits(&format!("b\"{}..", "k".repeat(78)))
    );
    cache.close();
    assert_eq!(
        text(cache.get(b"a")),
        "the cache is closed (key b\"a\", cache bytes)"
    );
    assert_eq!(text(cache.stats()), "the cache is closed (cache bytes)");
}

/// A key whose `Debug` counts how often, and how far, it is written, or panics.
#[derive(Clone, PartialEq, Eq, Hash)]
struct Counted(usize);

static WRITTEN: AtomicUsize = AtomicUsize::new(0);

impl fmt::Debug for Counted {
    fn fmt(&self, f: &mut fmt::Formatter<'_>) -> fmt::Result {
        assert_ne!(self.0, 0, "this key can't be written");
        for _ in 0..self.0 {
            WRITTEN.fetch_add(1, SeqCst);
            f.write_str("ä")?;
        }
        Ok(())
    }
}

#[test]
fn a_key_is_written_once_when_its_call_has_failed_and_not_to_its_end() {
    let load = |key: &Counted| {
        if key.0 == 7 {
            Ok(Some(7))
        } else {
            Err("no load")
        }
    };
    let cache = Cache::<Counted, u32>::builder()
        .loader(load)
        .name("counts")
        .build()
        .unwrap();
    for _ in 0..2 {
        cache.get(&Counted(7)).unwrap();
        cache.put(Counted(8), 8u32).unwrap();
    }
    assert_eq!(WRITTEN.load(SeqCst), 0);
    let error = cache.get(&Counted(1_000_000)).unwrap_err();
    assert_eq!(WRITTEN.load(SeqCst), 81);
    assert_eq!(error.at().key().unwrap(), format!("{}..", "ä".repeat(80)));
    assert_eq!(
        cache.get(&Counted(80)).unwrap_err().at().key().unwrap(),
        "ä".repeat(80)
    );
    assert!(catch_unwind(AssertUnwindSafe(|| cache.get(&Counted(0)))).is_err());
    cache.put(Counted(0), 0u32).unwrap();
    assert!(cache.agrees(), "the key was free before it was written");
}

#[test]
fn those_who_have_joined_a_load_name_it_too() {
    let (tell, told) = mpsc::channel();
    let told = std::sync::Mutex::new(told);
    let load = move |_: &String| told.lock().unwrap().recv().map_err(|_| "no load");
    let cache = Cache::<String, String>::builder()
        .loader(load)
        .name("pages");
    let cache = cache.build().unwrap();
    scope(|threads| {
        let calls = [(); 3].map(|()| threads.spawn(|| text(cache.get("a"))));
        while cache.waiting() < 2 {
            yield_now();
        }
        drop::<mpsc::Sender<Option<String>>>(tell);
        for call in calls {
            assert_eq!(call.join().unwrap(), LOADER);
        }
    });
}

#[test]
fn a_reload_that_fails_is_told() {
    let (tell, told) = mpsc::channel();
    let clock = Arc::new(AtomicUsize::new(0));
    let seconds = clock.clone();
    let load = |key: &u32| match key {
        0 => panic!("no load"),
        1 => Err("no load"),
        2 => Ok(None),
        _ => Ok(Some(0)),
    };
    let cache = Cache::<u32, u32>::builder()
        .name("pages")
        .loader(load)
        .on_refresh_error(move |key, error| tell.send((**key, error.to_string())).unwrap())
        .refresh_after(Duration::from_secs(1))
        .executor(|job| drop(catch_unwind(AssertUnwindSafe(job))))
        .clock(move || Duration::from_secs(seconds.load(SeqCst) as u64))
        .build()
        .unwrap();
    cache.put_all((0..4).map(|key| (key, key + 10))).unwrap();
    clock.store(1, SeqCst);
    for key in 0..4 {
        assert_eq!(cache.get(&key).unwrap().as_deref(), Some(&(key + 10)));
    }
    let (panicked, failed) = (
        "the loader panicked (key 0, cache pages)",
        "the loader failed (key 1, cache pages): no load",
    );
    let expected = [(0, panicked.to_string()), (1, failed.to_string())];
    assert_eq!(told.try_iter().collect::<Vec<_>>(), expected);
    let kept = cache.get_all(0..4).unwrap();
    assert_eq!(
        (*kept[&0], *kept[&1], *kept[&2], *kept[&3]),
        (10, 11, 12, 0)
    );
    assert!(cache.agrees());
}

#[test]
fn who_is_told_of_reloads_is_given_after_the_loader() {
    let early = Cache::<u32, u32>::builder().on_refresh_error(|_, _| {});
    let built = early
        .clone()
        .loader(|_: &u32| Ok::<_, String>(None))
        .build();
    let wanted = "on_refresh_error is set: it has to be set after the loader";
    assert_eq!(built.unwrap_err().to_string(), wanted);
    let again = early.loader(|_: &u32| Ok::<_, String>(None));
    assert!(again.on_refresh_error(|_, _| {}).build().is_ok());
}
