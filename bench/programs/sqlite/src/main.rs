//! Loads keys from a SQLite file, one by one or by `load_all`, for `bench/sqlite` to time.
#![tactic(auto)]

mod loads;

use itoa::Buffer;
use jc_sqlite::{Database, DatabaseLoader};
use jc_types::Key;
use loads::{load_all_each, load_each};
use std::alloc::Global;
use std::process::ExitCode;

/// How many keys the loads name, one after the other, again and again.
const KEYS: u32 = 1000;

/// What the loads are.
#[derive(Clone, Copy, PartialEq, Eq, Debug)]
enum Kind {
    /// `load` of one key.
    Load,
    /// `load_all` of all keys.
    LoadAll,
}

/// What the words of a command line ask for: what the loads are, how many rows the file has, and how often each key is loaded.
fn asked(words: &[String]) -> Option<(Kind, u32, u32)> {
    let [_, kind, _, rows, rounds] = words else {
        return None;
    };
    let kind = match kind.as_str() {
        "load" => Kind::Load,
        "load_all" => Kind::LoadAll,
        _ => return None,
    };
    Some((kind, rows.parse().ok()?, rounds.parse().ok()?))
}

fn main(rt: HostRuntime) -> anyhow::Result<ExitCode> {
    let alloc = rt.alloc();
    let words: Vec<String> = std::env::args(&rt)?.collect(alloc)?;
    let Some((kind, rows, rounds)) = asked(&words) else {
        eprintln!(rt; "usage: bench_sqlite load|load_all FILE ROWS ROUNDS")?;
        return Ok(ExitCode::from(2));
    };
    let keys = keys_of(alloc, rows)?;
    let database = Database::open(&rt, words[2].as_str())?;
    let mut loader = DatabaseLoader::new(rt, &database)?;
    let found = match kind {
        Kind::Load => load_each(&mut loader, &keys, rounds),
        Kind::LoadAll => load_all_each(alloc, &mut loader, &keys, rounds)?,
    };
    println!(rt; "{found}")?;
    Ok(ExitCode::SUCCESS)
}

/// The keys, which are spread over the rows, in an order that isn't the table's.
fn keys_of(alloc: Global, rows: u32) -> anyhow::Result<Vec<Key>> {
    let mut keys = Vec::new(alloc);
    let apart = rows / KEYS;
    for i in 0..KEYS {
        let row = (i.wrapping_mul(7919) % KEYS).wrapping_mul(apart);
        let mut buffer = Buffer::new();
        keys.push(Key::new(buffer.format(row).as_bytes())?)?;
    }
    Ok(keys)
}
