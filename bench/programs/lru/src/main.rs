//! Makes so many calls of one kind on the kit's `lru` under the kit's `Mutex`, one after another, for `bench/peers` to time.
#![tactic(auto)]

ghost use Rattle.std.specs.Prelude.{◌≤◌};

mod cached;

use cached::{Bytes, Cached, KEYS};
use std::alloc::Global;
use std::process::ExitCode;
use std::sync::Wait;

/// What the calls are.
#[derive(Clone, Copy, PartialEq, Eq, Debug)]
enum Kind {
    /// `get` of a key that is cached.
    Hit,
    /// Of ten calls two `put`, and eight `get` of a key that is cached.
    Mixed,
    /// `get` of a key that neither the cache nor the store has.
    Miss,
    /// `put` that writes to the store first.
    Put,
}

/// What the words of a command line ask for.
fn asked(words: &[String]) -> Option<(Kind, u32)> {
    let [_, kind, calls] = words else {
        return None;
    };
    let kind = match kind.as_str() {
        "hit" => Kind::Hit,
        "mixed" => Kind::Mixed,
        "miss" => Kind::Miss,
        "put" => Kind::Put,
        _ => return None,
    };
    Some((kind, calls.parse().ok()?))
}

fn main(rt: HostRuntime) -> anyhow::Result<ExitCode> {
    let alloc = rt.alloc();
    let words: Vec<String> = std::env::args(&rt)?.collect(alloc)?;
    let Some((kind, calls)) = asked(&words) else {
        eprintln!(rt; "usage: bench_lru hit|mixed|miss|put CALLS")?;
        return Ok(ExitCode::from(2));
    };
    let cached = Cached::new(alloc)?;
    let keys = keys_in_turn(alloc, b'a')?;
    let value = *b"a 16-byte value.";
    // Where no key is to be found, others are cached.
    let cached_kind = if kind == Kind::Miss { b'b' } else { b'a' };
    for key in &keys_in_turn(alloc, cached_kind)? {
        cached.put_through(&rt, key, &value);
    }
    let done = calls_done(&rt, &cached, &keys, &value, kind, calls);
    println!(rt; "{done}")?;
    Ok(ExitCode::SUCCESS)
}

/// Keys of 16 bytes. Those of another kind differ in their first byte.
fn keys_in_turn(alloc: Global, kind: u8) -> anyhow::Result<Vec<Bytes>> {
    let mut keys = Vec::new(alloc);
    for i in 0..KEYS {
        let mut key = *b"a key 16 bytes..";
        key[0] = kind;
        key[14] = (i / 64) as u8;
        key[15] = (i % 64) as u8;
        keys.push(key)?;
    }
    Ok(keys)
}

/// So many calls of a kind, of the keys in turn. How many of them did as their kind says.
fn calls_done<R: Wait>(
    rt: &R,
    cached: &Cached,
    keys: &[Bytes],
    value: &Bytes,
    kind: Kind,
    calls: u32,
) -> u32
    ensures { result ≤ calls }
{
    let mut done = 0;
    for i in 0..calls {
        let Some(key) = keys.get(i as usize % KEYS) else {
            return done;
        };
        let is_done = match kind {
            Kind::Hit => cached.get(rt, key).is_some(),
            Kind::Mixed if i % 10 < 2 => cached.put(rt, key, value),
            Kind::Mixed => cached.get(rt, key).is_some(),
            Kind::Miss => cached.get_through(rt, key).is_none(),
            Kind::Put => cached.put_through(rt, key, value),
        };
        if is_done {
            done += 1;
        }
    }
    done
}
