//! The split of batches: each subset of three keys is left, with and without a fault, with and without a key that the writer
//! added.
use super::{is, key, value};
use indexmap::{IndexMap, IndexSet};
use jc_batch::{BatchKeys, DeleteBatch, Split, WriteBatch};
use jc_model::{WriteAnswer, batch_answer, is_among};
use jc_types::{Key, Value};
use std::alloc::Global;
use std::process::Abort;

/// The keys that a writer leaves, those of the batch that were written, and those that failed.
type Row = (&'static str, &'static str, &'static str);

// The batch is of the keys a, b and c. The key z is the writer's own.
const ROWS: &[Row] = &[
    ("", "abc", ""),
    ("a", "bc", "a"),
    ("b", "ac", "b"),
    ("c", "ab", "c"),
    ("ba", "c", "ab"),
    ("ca", "b", "ac"),
    ("cb", "a", "bc"),
    ("cba", "", "abc"),
    ("z", "abc", ""),
    ("zb", "ac", "b"),
    ("czab", "", "abc"),
];

/// The keys as a text, one byte each.
fn text_of(rt: &impl Abort, alloc: Global, keys: &[Key]) -> Vec<u8> {
    let mut text = Vec::new(alloc);
    for key in keys {
        text.extend_from_slice(key.bytes()).expect(rt, "memory");
    }
    text
}

/// The keys that failed, as a text; asserts that all failed with this code.
fn text_of_failed(rt: &impl Abort, alloc: Global, failed: &[(Key, u32)], code: u32) -> Vec<u8> {
    let mut text = Vec::new(alloc);
    for (key, found) in failed {
        is(rt, "code", *found, code);
        text.extend_from_slice(key.bytes()).expect(rt, "memory");
    }
    text
}

fn split_as(rt: &impl Abort, alloc: Global, split: &Split, row: &Row, code: u32) {
    let (_left, written, failed) = row;
    let found = text_of(rt, alloc, &split.written);
    is(rt, "written", found.as_slice(), written.as_bytes());
    let found = text_of_failed(rt, alloc, &split.failed, code);
    is(rt, "failed", found.as_slice(), failed.as_bytes());
}

fn three_writes(rt: &impl Abort, alloc: Global) -> WriteBatch {
    let (a, b, c, v) = (key(rt, b"a"), key(rt, b"b"), key(rt, b"c"), value(rt, b"1"));
    let mut batch = WriteBatch::with_capacity(alloc, 3).expect(rt, "memory");
    batch.insert(a, v);
    assert!(rt; !is_among(&[a], &b));
    batch.insert(b, v);
    assert!(rt; !is_among(&[a, b], &c));
    batch.insert(c, v);
    batch
}

fn written(rt: &impl Abort, alloc: Global) -> BatchKeys {
    let batch = three_writes(rt, alloc);
    is(rt, "entries", batch.len(), 3);
    let (entries, keys) = batch.into_parts();
    let (a, v) = (key(rt, b"a"), value(rt, b"1"));
    is(rt, "first", entries.get_index(0), Some((&a, &v)));
    is(rt, "keys", keys.len(), 3);
    keys
}

fn three_deletes(rt: &impl Abort, alloc: Global) -> DeleteBatch {
    let (a, b, c) = (key(rt, b"a"), key(rt, b"b"), key(rt, b"c"));
    let mut batch = DeleteBatch::with_capacity(alloc, 3).expect(rt, "memory");
    batch.insert(a);
    assert!(rt; !is_among(&[a], &b));
    batch.insert(b);
    assert!(rt; !is_among(&[a, b], &c));
    batch.insert(c);
    batch
}

fn deleted(rt: &impl Abort, alloc: Global) -> BatchKeys {
    let batch = three_deletes(rt, alloc);
    is(rt, "keys", batch.len(), 3);
    let (collection, keys) = batch.into_parts();
    let c = key(rt, b"c");
    is(rt, "last", collection.get_index(2), Some(&c));
    keys
}

fn leftover_entries(rt: &impl Abort, alloc: Global, names: &str) -> IndexMap<Key, Value> {
    let mut left = IndexMap::new(alloc);
    for byte in names.as_bytes() {
        left.insert(key(rt, &[*byte]), value(rt, b"2"))
            .expect(rt, "memory");
    }
    left
}

fn leftover_keys(rt: &impl Abort, alloc: Global, names: &str) -> IndexSet<Key> {
    let mut left = IndexSet::new(alloc);
    for byte in names.as_bytes() {
        left.insert(key(rt, &[*byte])).expect(rt, "memory");
    }
    left
}

fn splits_writes(rt: &impl Abort, alloc: Global, row: &Row, fault: Option<u32>) {
    let left = leftover_entries(rt, alloc, row.0);
    let split = written(rt, alloc).split(&left, fault);
    split_as(rt, alloc, &split, row, fault.unwrap_or(0));
}

fn splits_deletes(rt: &impl Abort, alloc: Global, row: &Row, fault: Option<u32>) {
    let left = leftover_keys(rt, alloc, row.0);
    let split = deleted(rt, alloc).split(&left, fault);
    split_as(rt, alloc, &split, row, fault.unwrap_or(0));
}

#[test]
fn splits_by_what_is_left(rt: HostRuntime) {
    for row in ROWS {
        splits_writes(&rt, rt.alloc(), row, Some(7));
        splits_writes(&rt, rt.alloc(), row, None);
        splits_deletes(&rt, rt.alloc(), row, Some(u32::MAX));
        splits_deletes(&rt, rt.alloc(), row, None);
    }
}

#[test]
fn answers_by_what_is_left(rt: HostRuntime) {
    let (a, b) = (key(&rt, b"a"), key(&rt, b"b"));
    is(
        &rt,
        "left",
        batch_answer(is_among(&[a], &a), Some(4)),
        WriteAnswer::Failed(4),
    );
    is(
        &rt,
        "left, no fault",
        batch_answer(is_among(&[b, a], &a), None),
        WriteAnswer::Failed(0),
    );
    is(
        &rt,
        "gone, a fault",
        batch_answer(is_among(&[b], &a), Some(4)),
        WriteAnswer::Done,
    );
    is(&rt, "gone", batch_answer(false, None), WriteAnswer::Done);
}
