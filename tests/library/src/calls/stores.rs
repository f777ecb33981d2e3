//! A store behind a lock, its loaders and writers, and what they count.
use super::bytes::{key, value};
use super::is;
use indexmap::{IndexMap, IndexSet};
use jc_outside::{Answers, CacheLoader, CacheWriter};
use jc_store::{Counting, SharedCounts, SharedStore, Store};
use jc_types::{Key, Value};
use std::alloc::AllocError;
use std::process::Abort;
use std::sync::Wait;
use std::test::Fail;

fn loads(rt: &impl Abort, loader: &mut dyn CacheLoader, at: u8, want: Option<Value>) {
    is(rt, loader.load(&key(rt, at)), Ok(want));
}

fn writes(rt: &impl Abort, writer: &mut dyn CacheWriter, at: u8, byte: u8) {
    is(rt, writer.write(&key(rt, at), &value(rt, byte)), Ok(()));
}

fn deletes(rt: &impl Abort, writer: &mut dyn CacheWriter, at: u8) {
    is(rt, writer.delete(&key(rt, at)), Ok(()));
}

fn has<R: Abort + Wait>(rt: &R, store: &SharedStore, at: u8, want: Option<Value>) {
    is(rt, store.read(rt, &key(rt, at)), want);
}

/// The calls by one key, and those by batches, of loads, writes and deletes.
fn counted<R: Abort + Wait>(rt: &R, counts: &SharedCounts, single: [u64; 3], batches: [u64; 3]) {
    let counts = counts.now(rt);
    is(rt, [counts.loads, counts.writes, counts.deletes], single);
    let found = [
        counts.load_batches,
        counts.write_batches,
        counts.delete_batches,
    ];
    is(rt, found, batches);
}

/// A form of a loader or a writer that counts.
fn counting<T: Drop, R: Abort + Wait + Drop + Copy>(
    rt: R,
    inner: Result<T, AllocError>,
    counts: &SharedCounts,
) -> Counting<T, R> {
    let inner = inner.expect(&rt, "memory");
    counts.counting(rt, inner).expect(&rt, "memory")
}

fn make<R: Abort + Wait>(rt: &R, alloc: std::alloc::Global) -> SharedStore {
    let store = Store::of(alloc, &[(key(rt, b'a'), value(rt, 1))]).expect(rt, "memory");
    SharedStore::new(alloc, store).expect(rt, "memory")
}

#[test]
fn counts_loads_from_outside_the_box(rt: HostRuntime) {
    let alloc = rt.alloc();
    let store = make(&rt, alloc);
    let counts = SharedCounts::new(alloc).expect(&rt, "memory");
    let counting = counting(rt, store.loader(rt), &counts);
    let mut loader: Box<dyn CacheLoader + Send + Drop> = Box::new(alloc, counting)
        .ok()
        .expect(&rt, "memory");
    is(&rt, loader.load(&key(&rt, b'a')), Ok(Some(value(&rt, 1))));
    counted(&rt, &counts, [1, 0, 0], [0, 0, 0]);
}

#[test]
fn loads_what_was_written(rt: HostRuntime) {
    let store = make(&rt, rt.alloc());
    let counts = SharedCounts::new(rt.alloc()).expect(&rt, "memory");
    let mut loader = counting(rt, store.loader(rt), &counts);
    let mut writer = counting(rt, store.writer(rt), &counts);
    loads(&rt, &mut loader, b'b', None);
    writes(&rt, &mut writer, b'b', 2);
    deletes(&rt, &mut writer, b'a');
    deletes(&rt, &mut writer, b'a');
    deletes(&rt, &mut writer, b'c');
    loads(&rt, &mut loader, b'b', Some(value(&rt, 2)));
    has(&rt, &store, b'a', None);
    has(&rt, &store, b'b', Some(value(&rt, 2)));
    counted(&rt, &counts, [2, 1, 3], [0, 0, 0]);
}

#[test]
fn takes_out_what_it_wrote(rt: HostRuntime) {
    let store = make(&rt, rt.alloc());
    let counts = SharedCounts::new(rt.alloc()).expect(&rt, "memory");
    let mut writer = counting(rt, store.writer(rt), &counts);
    let mut entries = IndexMap::new(rt.alloc());
    entries
        .insert(key(&rt, b'b'), value(&rt, 2))
        .expect(&rt, "memory");
    entries
        .insert(key(&rt, b'a'), value(&rt, 3))
        .expect(&rt, "memory");
    is(&rt, writer.write_all(&mut entries), Ok(()));
    is(&rt, entries.len(), 0);
    is(
        &rt,
        store.entries(&rt, rt.alloc()).expect(&rt, "memory").len(),
        2,
    );
    has(&rt, &store, b'a', Some(value(&rt, 3)));
    counted(&rt, &counts, [0, 0, 0], [0, 1, 0]);
}

#[test]
fn takes_out_what_it_deleted(rt: HostRuntime) {
    let store = make(&rt, rt.alloc());
    let counts = SharedCounts::new(rt.alloc()).expect(&rt, "memory");
    let mut writer = counting(rt, store.writer(rt), &counts);
    let mut keys = IndexSet::new(rt.alloc());
    keys.insert(key(&rt, b'c')).expect(&rt, "memory");
    keys.insert(key(&rt, b'a')).expect(&rt, "memory");
    is(&rt, writer.delete_all(&mut keys), Ok(()));
    is(&rt, keys.len(), 0);
    has(&rt, &store, b'a', None);
    counted(&rt, &counts, [0, 0, 0], [0, 0, 1]);
}

#[test]
fn answers_a_batch(rt: HostRuntime) {
    let store = make(&rt, rt.alloc());
    let counts = SharedCounts::new(rt.alloc()).expect(&rt, "memory");
    let mut loader = counting(rt, store.loader(rt), &counts);
    let keys = [key(&rt, b'a'), key(&rt, b'c')];
    let mut answers = Answers::new(rt.alloc(), &keys).expect(&rt, "memory");
    is(&rt, loader.load_all(&keys, &mut answers), Ok(()));
    is(&rt, answers.get(&key(&rt, b'a')), Some(value(&rt, 1)));
    is(&rt, answers.get(&key(&rt, b'c')), None);
    counted(&rt, &counts, [0, 0, 0], [1, 0, 0]);
}
