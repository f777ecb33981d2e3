//! Writes and deletes of one key and of many.
use super::letters::Letters;
use super::{is, key, value};
use indexmap::{IndexMap, IndexSet};
use jc_model::{Change, WriteAnswer};
use jc_outside::{Ask, AskWrite, CacheWriter, Hands, Outside, call_writer};
use jc_plain::{Write, Writing};
use jc_types::{Key, Value};
use std::alloc::Global;
use std::process::Abort;
use std::sync::Wait;

/// The keys of the collection, the failure of the call, and the keys that are left.
type Row = (&'static str, Option<u8>, &'static str);

const ROWS: &[Row] = &[
    ("", None, ""),
    ("a", None, ""),
    ("abc", None, ""),
    ("A", Some(b'A'), "A"),
    ("Abc", Some(b'A'), "A"),
    ("aBc", Some(b'B'), "B"),
    ("abC", Some(b'C'), "C"),
    ("AbC", Some(b'C'), "AC"),
    ("CbA", Some(b'A'), "CA"),
    ("ABC", Some(b'C'), "ABC"),
];

/// An entry for each key: its value is the key.
fn entries(rt: &impl Abort, alloc: Global, text: &str) -> IndexMap<Key, Value> {
    let mut entries = IndexMap::new(alloc);
    for byte in text.as_bytes() {
        entries
            .insert(key(rt, *byte), value(rt, *byte))
            .expect(rt, "memory");
    }
    entries
}

fn keys(rt: &impl Abort, alloc: Global, text: &str) -> IndexSet<Key> {
    let mut keys = IndexSet::new(alloc);
    for byte in text.as_bytes() {
        keys.insert(key(rt, *byte)).expect(rt, "memory");
    }
    keys
}

/// Asserts that the entries are these, in this order, each with its value.
fn entries_are(rt: &impl Abort, entries: &IndexMap<Key, Value>, text: &str) {
    is(rt, text, entries.len(), text.len());
    for ((key, value), byte) in entries.iter().zip(text.as_bytes()) {
        is(rt, text, (key.bytes(), value.bytes()), (&[*byte], &[*byte]));
    }
}

/// Asserts that the keys are these, in this order.
fn keys_are(rt: &impl Abort, keys: &IndexSet<Key>, text: &str) {
    is(rt, text, keys.len(), text.len());
    for (key, byte) in keys.iter().zip(text.as_bytes()) {
        is(rt, text, key.bytes(), &[*byte]);
    }
}

/// The value of the last of these entries, which is the last one to be written, whatever failed before.
fn last_of(rt: &impl Abort, text: &str) -> Option<Value> {
    let byte = text.as_bytes().last().copied()?;
    Some(value(rt, byte))
}

/// The code with which a delete fails at a capital letter.
fn small(byte: u8) -> u32 {
    u32::from(byte.to_ascii_lowercase())
}

fn writes_as(rt: &impl Abort, alloc: Global, row: &Row) {
    let (text, code, left) = row;
    let mut entries = entries(rt, alloc, text);
    let mut letters = Letters::new();
    let returned = letters.write_all(&mut entries);
    is(rt, text, returned.err(), code.map(u32::from));
    is(rt, text, letters.calls as usize, text.len());
    is(rt, text, letters.last, last_of(rt, text));
    entries_are(rt, &entries, left);
}

fn deletes_as(rt: &impl Abort, alloc: Global, row: &Row) {
    let (text, code, left) = row;
    let mut keys = keys(rt, alloc, text);
    let mut letters = Letters::new();
    let returned = letters.delete_all(&mut keys);
    is(rt, text, returned.err(), code.map(small));
    is(rt, text, letters.calls as usize, text.len());
    keys_are(rt, &keys, left);
}

#[test]
fn leaves_exactly_what_failed(rt: HostRuntime) {
    for row in ROWS {
        writes_as(&rt, rt.alloc(), row);
        deletes_as(&rt, rt.alloc(), row);
    }
}

/// Changes all in one transaction, if there is something to change.
#[derive(Drop)]
struct Transaction;

impl Write for Transaction {
    fn write(&mut self, _key: &Key, _value: &Value) -> Result<(), u32> {
        Err(1)
    }

    fn delete(&mut self, _key: &Key) -> Result<(), u32> {
        Err(2)
    }

    fn write_all(&mut self, entries: &mut IndexMap<Key, Value>) -> Result<(), u32> {
        if entries.is_empty() {
            return Err(3);
        }
        entries.clear();
        Ok(())
    }

    fn delete_all(&mut self, keys: &mut IndexSet<Key>) -> Result<(), u32> {
        if keys.is_empty() {
            return Err(4);
        }
        keys.clear();
        Ok(())
    }
}

/// An ask of a writer.
struct Asked {
    key: Key,
    change: Change,
}

impl Ask for Asked {
    ghost key = { ? };

    fn key(&self) -> &Key {
        &self.key
    }

    fn spend(self) {
        let Asked { key: _, change: _ } = self;
    }
}

impl AskWrite for Asked {
    ghost change = { ? };

    fn change(&self) -> Change {
        self.change
    }
}

/// Asks to write a value, or to delete, which fails with this code or doesn't fail.
fn change<R: Abort + Wait>(
    rt: &R,
    hands: &mut Hands<Outside>,
    byte: u8,
    is_write: bool,
    code: Option<u32>,
) {
    let change = if is_write {
        Change::Write(value(rt, b'1'))
    } else {
        Change::Delete
    };
    let ask = Asked {
        key: key(rt, byte),
        change,
    };
    let want = code.map_or(WriteAnswer::Done, WriteAnswer::Failed);
    is(
        rt,
        "change",
        call_writer(rt, hands, ask).into_answer(),
        want,
    );
}

#[test]
fn a_cache_calls_what_was_wrapped(rt: HostRuntime) {
    let letters = Writing {
        writer: Letters::new(),
    };
    let writer = boxed!(rt, Box<dyn CacheWriter + Send + Drop>, letters);
    let mut hands = Hands::new(Outside {
        loader: None,
        writer: Some(writer),
    });
    change(&rt, &mut hands, b'a', true, None);
    change(&rt, &mut hands, b'B', true, Some(66));
    change(&rt, &mut hands, b'a', false, None);
    change(&rt, &mut hands, b'B', false, Some(98));
}

/// Changes many keys by a writer, and asserts what it leaves.
fn leaves(rt: &impl Abort, alloc: Global, writer: &mut dyn CacheWriter, row: &Row) {
    let (text, code, left) = row;
    let mut entries = entries(rt, alloc, text);
    is(
        rt,
        text,
        writer.write_all(&mut entries).err(),
        code.map(u32::from),
    );
    entries_are(rt, &entries, left);
}

fn leaves_keys(rt: &impl Abort, alloc: Global, writer: &mut dyn CacheWriter, row: &Row) {
    let (text, code, left) = row;
    let mut keys = keys(rt, alloc, text);
    is(
        rt,
        text,
        writer.delete_all(&mut keys).err(),
        code.map(small),
    );
    keys_are(rt, &keys, left);
}

#[test]
fn a_cache_sees_what_is_left(rt: HostRuntime) {
    let mut letters = Writing {
        writer: Letters::new(),
    };
    leaves(&rt, rt.alloc(), &mut letters, &("aBc", Some(b'B'), "B"));
    leaves_keys(&rt, rt.alloc(), &mut letters, &("ABc", Some(b'B'), "AB"));
    let mut transaction = Writing {
        writer: Transaction,
    };
    leaves(&rt, rt.alloc(), &mut transaction, &("aBc", None, ""));
    leaves_keys(&rt, rt.alloc(), &mut transaction, &("aBc", None, ""));
    leaves(&rt, rt.alloc(), &mut transaction, &("", Some(3), ""));
    leaves_keys(&rt, rt.alloc(), &mut transaction, &("", Some(4), ""));
}
