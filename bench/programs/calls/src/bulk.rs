//! The loops of calls with many keys, and the keys that one call names.
ghost use Rattle.std.specs.Prelude.{◌≤◌};
ghost use Rattle.jc_cache.specs.Sessions.{MayCall};

use indexmap::{IndexMap, IndexSet};
use jc_bulk::{get_all, put_all};
use jc_cache::{Cache, Session};
use jc_types::{Key, Value};
use std::alloc::{AllocError, Global};
use std::sync::Wait;

/// How many keys a call names.
const CALL_KEYS: usize = 64;

/// The first of these keys, each with this value.
pub fn first_entries(
    alloc: Global,
    keys: &[Key],
    value: &Value,
) -> Result<IndexMap<Key, Value>, AllocError> {
    let mut entries = IndexMap::with_capacity(alloc, CALL_KEYS)?;
    for key in keys.iter().take(CALL_KEYS) {
        entries.insert(*key, *value)?;
    }
    Ok(entries)
}

/// The first of these keys.
pub fn first_keys(alloc: Global, keys: &[Key]) -> Result<IndexSet<Key>, AllocError> {
    let mut first = IndexSet::with_capacity(alloc, CALL_KEYS)?;
    for key in keys.iter().take(CALL_KEYS) {
        first.insert(*key)?;
    }
    Ok(first)
}

/// So many calls `put_all` of these entries. The number of those that put them all.
pub fn put_all_each<R: Wait>(
    alloc: Global,
    rt: &R,
    cache: &Cache,
    session: &mut Session,
    entries: &IndexMap<Key, Value>,
    calls: u32,
) -> u32
    requires may { MayCall cache.now session.old }
    ensures may { MayCall cache.now session.new }
    ensures most { result ≤ calls }
{
    let mut done = 0;
    for _call in 0..calls {
        if put_all(alloc, rt, cache, session, entries).is_ok() {
            done += 1;
        }
    }
    done
}

/// So many calls `get_all` of these keys. The number of those that found so many of them.
pub fn get_all_each<R: Wait>(
    alloc: Global,
    rt: &R,
    cache: &Cache,
    session: &mut Session,
    keys: &IndexSet<Key>,
    wanted: usize,
    calls: u32,
) -> u32
    requires may { MayCall cache.now session.old }
    ensures may { MayCall cache.now session.new }
    ensures most { result ≤ calls }
{
    let mut done = 0;
    for _call in 0..calls {
        if finds(alloc, rt, cache, session, keys, wanted) {
            done += 1;
        }
    }
    done
}

/// One call `get_all` of these keys. Whether it found so many of them.
fn finds<R: Wait>(
    alloc: Global,
    rt: &R,
    cache: &Cache,
    session: &mut Session,
    keys: &IndexSet<Key>,
    wanted: usize,
) -> bool
    requires { MayCall cache.now session.old }
    ensures { MayCall cache.now session.new }
{
    match get_all(alloc, rt, cache, session, keys) {
        Ok(found) => found.len() == wanted,
        Err(_) => false,
    }
}
