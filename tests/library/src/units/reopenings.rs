//! Stripes that open with entries: those that each keeps, and those that are dropped.
//!
//! A row is `STRIPES of CAPACITY: ENTRIES`, a line for each stripe with the entries that it keeps, by the stripes' numbers, and a
//! line `drops ENTRIES`. `nothing` stands for no entries.
use super::script::number;
use super::{is, pairs};
use jc_model::legal;
use jc_stripe::{Origin, ReopenedStripes, Stripe, reopen};
use jc_types::{Config, Key, Value};
use std::alloc::Global;
use std::process::Abort;

// By the sum of its bytes, a is of stripe 1 and b of stripe 0 of two, and c is of stripe 1; of three, a is of stripe 1, b of 2, c of 0
// and d of 1.
const ROWS: &str = "\
1 of 2: a=1 c=2 b=3
a=1 c=2
drops b=3
==
1 of 2: b=3 a=1
b=3 a=1
drops nothing
==
2 of 2: a=1 c=2 b=3
b=3
a=1 c=2
drops nothing
==
2 of 1: a=1 c=2 b=3 d=4
b=3
a=1
drops c=2 d=4
==
3 of 1: d=4 a=1 b=2 c=3
c=3
d=4
b=2
drops a=1
==
2 of 4096: nothing
nothing
nothing
drops nothing";

fn entries_of(rt: &impl Abort, alloc: Global, text: &str) -> Vec<(Key, Value)> {
    if text == "nothing" {
        return Vec::new(alloc);
    }
    pairs(rt, alloc, text)
}

/// The shape that a text names.
fn shape(rt: &impl Abort, text: &str) -> Config {
    let (stripes, capacity) = text.split_once(" of ").expect(rt, text);
    Config {
        stripes: number(rt, stripes) as usize,
        capacity: number(rt, capacity) as usize,
        history: 16,
        read_through: false,
        write_through: false,
    }
}

/// Whether no key is there twice, by what a stripe of the largest size may open with.
pub(super) fn is_once(rt: &impl Abort, alloc: Global, entries: &[(Key, Value)]) -> bool {
    let config = Config {
        stripes: 1,
        capacity: 4096,
        history: 16,
        read_through: false,
        write_through: false,
    };
    legal(alloc, &config, entries, &[]).expect(rt, "memory")
}

/// Asserts that a stripe keeps these entries, in this order.
fn keeps(rt: &impl Abort, alloc: Global, stripe: &Stripe, line: &str) {
    let mut kept = Vec::new(alloc);
    stripe.entries(&mut kept).expect(rt, "memory");
    is(
        rt,
        line,
        kept.as_slice(),
        entries_of(rt, alloc, line).as_slice(),
    );
}

/// Opens a row's stripes, and compares the entries that they keep and those that are dropped.
fn opens(rt: &impl Abort, alloc: Global, row: &str) {
    let (first, lines) = row.split_once('\n').expect(rt, row);
    let (words, text) = first.split_once(": ").expect(rt, first);
    let (lines, drops) = lines.rsplit_once("\ndrops ").expect(rt, first);
    let (config, given) = (shape(rt, words), entries_of(rt, alloc, text));
    config.check().expect(rt, words);
    assert!(rt; is_once(rt, alloc, &given), "each key once");
    let reopened = reopen(alloc, &config, Origin::Played, &given);
    let ReopenedStripes { stripes, dropped } = reopened.expect(rt, "memory");
    is(rt, first, stripes.len(), lines.lines().count());
    for (stripe, line) in stripes.iter().zip(lines.lines()) {
        keeps(rt, alloc, stripe, line);
    }
    is(
        rt,
        drops,
        dropped.as_slice(),
        entries_of(rt, alloc, drops).as_slice(),
    );
}

#[test]
fn keeps_as_many_as_there_is_room_for(rt: HostRuntime) {
    for row in ROWS.split("\n==\n") {
        opens(&rt, rt.alloc(), row);
    }
}
