//! Tests of the stripe and of the crates below it: a file for each type or table.
mod batches;
mod beside_lists;
mod callers;
mod config;
mod contents;
mod desk;
mod entries;
mod evictions;
mod history;
mod joiners;
mod keys;
mod openings;
mod refusal;
mod reopenings;
mod reservations;
mod script;
mod shared;
mod statistics;
mod stripes;
mod table;
mod values;

use crate::common::is_at as is;
use jc_types::{Config, Key, Value};
use std::alloc::Global;
use std::process::Abort;

fn key(rt: &impl Abort, bytes: &[u8]) -> Key {
    Key::new(bytes).ok().expect(rt, "a key")
}

fn value(rt: &impl Abort, bytes: &[u8]) -> Value {
    Value::new(bytes).ok().expect(rt, "a value")
}

/// The entries that a text names: each has a key, `=` and a value, with a space between two of them.
fn pairs(rt: &impl Abort, alloc: Global, text: &str) -> Vec<(Key, Value)> {
    let mut found = Vec::new(alloc);
    for word in text.split(' ') {
        let (name, text) = word.split_once('=').expect(rt, word);
        let pair = (key(rt, name.as_bytes()), value(rt, text.as_bytes()));
        found.push(pair).expect(rt, "memory");
    }
    found
}

/// One stripe with room for two entries, with read-through and write-through or with neither.
fn shape(is_through: bool) -> Config {
    Config {
        stripes: 1,
        capacity: 2,
        history: 100,
        read_through: is_through,
        write_through: is_through,
    }
}
