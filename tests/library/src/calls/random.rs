//! Random calls of four sessions, each on a thread of its own, on a cache that is too small for their keys, before a loader and a
//! writer that fail now and then.
use super::answers::{called_bare, called_valued};
use super::manners::DOWN;
use super::real_time::Times;
use super::*;

/// How many calls each session makes.
const CALLS: u64 = 300;

const WORDS: [&str; 8] = ["a", "b", "c", "d", "e", "f", "g", "h"];

/// The operations that take a key alone. A third of the calls are `get`s.
const BARE: [&str; 6] = ["get", "get", "get", "get", "contains", "remove"];

/// The operations that take a key and a value.
const VALUED: [&str; 6] = [
    "put",
    "getput",
    "putif",
    "removeif",
    "replace",
    "getreplace",
];

/// Numbers that look random (Knuth's linear congruential generator).
#[derive(Drop)]
struct Random(u64);

impl Random {
    /// A number below 8.
    fn next(&mut self) -> usize {
        self.0 = self
            .0
            .wrapping_mul(6_364_136_223_846_793_005)
            .wrapping_add(1_442_695_040_888_963_407);
        (self.0 >> 61) as usize
    }
}

/// Makes a random call. It answers, or the loader or the writer was down.
fn call_once<R: Abort + Wait>(rt: &R, cache: &Cache, session: &mut Session, random: &mut Random) {
    let key = key(rt, WORDS[random.next()]);
    let op = random.next() % 6;
    if random.next() < 5 {
        let answer = called_bare(rt, cache, session, BARE[op], &key);
        is_well_or_down(rt, answer);
        return;
    }
    let value = value(rt, WORDS[random.next()]);
    let answer = called_valued(rt, cache, session, VALUED[op], &key, &value);
    is_well_or_down(rt, answer);
}

/// A call was made, and it failed at most because the loader or the writer was down.
fn is_well_or_down(rt: &impl Abort, answer: Option<Answer>) {
    if let Err(fault) = answer.expect(rt, "an operation") {
        assert!(rt; fault == Refusal::LoaderFailed(DOWN) || fault == Refusal::WriterFailed(DOWN));
    }
}

/// Makes random calls, always the same ones for a seed, and notes when each began and returned.
pub fn call_often<R: Abort + Wait>(
    rt: &R,
    times: &Times,
    cache: &Cache,
    session: &mut Session,
    seed: u64,
) {
    let mut random = Random(seed);
    for _ in 0..CALLS {
        let began = times.now();
        call_once(rt, cache, session, &mut random);
        times.note(rt, session.caller(), began);
    }
}

/// Loaders and writers that never fail. Each call is one step.
pub const WELL: &str = "\
open 2 3 4096 read write
random
own 300
s2 own 300
s3 own 300
s4 own 300
";

/// Loaders and writers that fail at each fifth call.
pub const DOWN_AT_TIMES: &str = "\
open 2 3 4096 read write
with all each5 each5
random
own 300
s2 own 300
s3 own 300
s4 own 300
";
