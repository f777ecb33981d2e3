//! The answers of a table of reservations, from an empty one to a full one. No test is given an allocator.
use super::{is, key};
use jc_reserve::{Reservations, Reserved};
use jc_types::Key;
use std::process::Abort;

/// A reserved key, with its number and a note.
#[derive(Clone, Copy, Debug, Default)]
struct Slot {
    key: Key,
    number: u64,
    note: u8,
}

impl Reserved for Slot {
    ghost key = { ? };

    ghost number = { ? };

    fn key(&self) -> &Key {
        &self.key
    }
}

/// Reserves a key with this note, and returns the number of its reservation.
fn reserve(table: &mut Reservations<Slot>, key: &Key, note: u8) -> Option<u64> {
    let number = table.next_number();
    table.reserve(&Slot {
        key: *key,
        number,
        note,
    })
}

/// The number and the note of a key's reservation.
fn found(table: &Reservations<Slot>, key: &Key) -> Option<(u64, u8)> {
    match table.find(key) {
        Some(slot) => Some((slot.number, slot.note)),
        None => None,
    }
}

/// A key that is reserved with this note, and the number that it gets; without a note the key is released.
type Change = (&'static str, Option<u8>, Option<u64>);

const CHANGES: &[Change] = &[
    ("a", Some(1), Some(0)),
    ("b", Some(2), Some(1)),
    ("a", Some(3), None),
    ("b", None, None),
    ("b", None, None),
    ("b", Some(4), Some(2)),
    ("a", None, None),
    ("a", Some(5), Some(3)),
    ("c", Some(6), Some(4)),
];

/// A key, with its number and note.
type Found = (&'static str, Option<(u64, u8)>);

// The keys after that.
const FOUND: &[Found] = &[
    ("a", Some((3, 5))),
    ("b", Some((2, 4))),
    ("c", Some((4, 6))),
    ("d", None),
];

fn make(rt: &impl Abort, table: &mut Reservations<Slot>, changes: &[Change]) {
    for (name, note, want) in changes {
        let key = key(rt, name.as_bytes());
        match note {
            Some(note) => is(rt, name, reserve(table, &key, *note), *want),
            None => {
                let was = table.is_reserved(&key);
                is(rt, name, table.release(&key), was);
            }
        }
    }
}

fn look_all_up(rt: &impl Abort, table: &Reservations<Slot>, all: &[Found]) {
    for (name, want) in all {
        let key = key(rt, name.as_bytes());
        is(rt, name, found(table, &key), *want);
        is(rt, name, table.is_reserved(&key), want.is_some());
    }
}

/// Asserts the reservations as a list: the keys `b` and `c`, by the numbers 2 and 4.
fn look_at_list(rt: &impl Abort, table: &Reservations<Slot>) {
    let left = [key(rt, b"b"), key(rt, b"c")];
    is(rt, "keys", table.keys(), left.as_slice());
    let list = table.list();
    assert!(rt; list.len() == 2);
    for place in 0..2 {
        is(rt, "key", list[place].key, left[place]);
    }
    let (b, c) = (list[0], list[1]);
    is(rt, "b", (b.number, b.note), (2, 4));
    is(rt, "c", (c.number, c.note), (4, 6));
}

#[test]
fn numbers_rise_and_never_come_twice(rt: HostRuntime) {
    let mut table = Reservations::new();
    is(&rt, "new", table.is_empty(), true);
    make(&rt, &mut table, CHANGES);
    look_all_up(&rt, &table, FOUND);
    is(&rt, "a", table.release(&key(&rt, b"a")), true);
    look_at_list(&rt, &table);
}

/// Reserves the keys with the bytes `k0` to `k63`, each with its number as its note.
fn reserve_64(rt: &impl Abort, table: &mut Reservations<Slot>) {
    for i in 0..64u8 {
        is(rt, "full too early", table.is_full(), false);
        let number = reserve(table, &key(rt, &[b'k', i]), i);
        is(rt, "a number", number, Some(i as u64));
    }
}

#[test]
fn holds_64_keys_and_no_65th(rt: HostRuntime) {
    let mut table = Reservations::new();
    reserve_64(&rt, &mut table);
    is(&rt, "full", table.is_full(), true);
    let other = key(&rt, b"other");
    is(&rt, "full", reserve(&mut table, &other, 64), None);
    is(&rt, "full", table.list().len(), 64);
    let left = key(&rt, &[b'k', 31]);
    is(&rt, "its note", found(&table, &left), Some((31, 31)));
    is(&rt, "one leaves", table.release(&left), true);
    let number = reserve(&mut table, &other, 64);
    is(&rt, "the refused call used no number", number, Some(64));
    is(&rt, "full again", table.is_full(), true);
    is(&rt, "numbers are left", table.is_used_up(), false);
}
