//! The phases of a stripe, each once, and its limits of 64, as lines of text. What scripts can test, such as which entry is
//! evicted and when a history is full, is in `tests/cases`, and so is the last phase of an entry processor.
//!
//! A line has an action, ` = `, and the expected result:
//!
//! - `begin CALL SESSION OP KEY [VALUE]`, a first phase: `REPLY at PLACE`; `asks loader`, `asks write VALUE`, `asks delete`, or
//!   `asks process ENTRY [loading]`, with the entry that it sees and `loading` if it may be loaded; `joins CALL`, with the call
//!   that loads; or `refused REFUSAL`;
//! - `commit CALL read VALUE`, `commit CALL apply` and the like, a last phase with the answer of the loader or the writer: `REPLY
//!   at PLACE`;
//! - `drop CALL`, a withdrawal: `dropped`;
//! - `take CALL`, a joiner asks for its answer: `REPLY at PLACE shared PLACE`, `waits`, or `again`;
//! - `counts HITS MISSES PUTS REMOVALS EVICTIONS`, the counts of the steps: `yes` or `no`;
//! - `restart`, the stripe is made as a new one: `yes` if nothing is out then;
//! - `idle`, `clear CALL SESSION KEY`, `admits CALL SESSION KEY`, `outside OP KEY [VALUE]`, tests of the stripe: `yes` or `no`.
//!
//! `each N: LINE` is N lines, with the numbers from 1 in place of each `#`. A case is a comment with its rule, a line `open
//! HISTORY [read] [write] [from NUMBER]` for a stripe with room for two entries, whose first reservation has this number, or 0
//! without one, and lines. At its end no call is out.
pub mod desk;
pub mod words;

use super::reopenings::is_once;
use super::script::{answer, caller, first_word, key, number, op};
use super::{is, pairs};
use desk::Desk;
use jc_model::{Statistics, legal};
use jc_stripe::{Origin, Stripe, reopen};
use jc_types::{Config, Key, Value};
use std::alloc::Global;
use std::process::Abort;
use words::{Seen, seen_of};

/// The shape of an `open` line.
pub(super) fn shape(rt: &impl Abort, line: &str) -> Config {
    let (history, options) = first_word(line.strip_prefix("open ").expect(rt, line));
    Config {
        stripes: 1,
        capacity: 2,
        history: number(rt, history) as usize,
        read_through: options.contains("read"),
        write_through: options.contains("write"),
    }
}

/// The number of the first reservation of an `open` line.
fn first_reservation(rt: &impl Abort, line: &str) -> u64 {
    match line.split_once(" from ") {
        Some((_shape, word)) => word.parse().ok().expect(rt, word),
        None => 0,
    }
}

/// Hits, misses, puts, removals and evictions, in this order.
pub(super) fn statistics(rt: &impl Abort, text: &str) -> Statistics {
    let (hits, rest) = first_word(text);
    let (misses, rest) = first_word(rest);
    let (puts, rest) = first_word(rest);
    let (removals, evictions) = first_word(rest);
    Statistics {
        hits: u64::from(number(rt, hits)),
        misses: u64::from(number(rt, misses)),
        puts: u64::from(number(rt, puts)),
        removals: u64::from(number(rt, removals)),
        evictions: u64::from(number(rt, evictions)),
    }
}

/// A test of the stripe.
fn look(rt: &impl Abort, stripe: &Stripe, word: &str, text: &str) -> bool {
    if word == "idle" {
        return stripe.is_idle();
    }
    let (first, rest) = first_word(text);
    let (name, rest) = first_word(rest);
    match word {
        "counts" => stripe.statistics() == statistics(rt, text),
        "outside" => stripe.asks_outside(&key(rt, name), &op(rt, first, rest)),
        "clear" => stripe.is_clear(caller(rt, first, name), &key(rt, rest)),
        "admits" => stripe.admits(caller(rt, first, name), &key(rt, rest)),
        _ => panic!(rt; "no test"),
    }
}

fn begin(rt: &impl Abort, desk: &mut Desk, call: &str, text: &str) -> Seen {
    let (session, text) = first_word(text);
    let (name, text) = first_word(text);
    let (at, value) = first_word(text);
    let caller = caller(rt, call, session);
    desk.begin(rt, caller, &key(rt, at), &op(rt, name, value))
}

/// Carries out a line, and compares the result.
fn play(rt: &impl Abort, desk: &mut Desk, line: &str) {
    let (done, wanted) = line.split_once(" = ").expect(rt, line);
    let (word, text) = first_word(done);
    let (call, rest) = first_word(text);
    let number = call.parse().unwrap_or(0);
    let found = match word {
        "begin" => begin(rt, desk, call, rest),
        "commit" => desk.commit(rt, number, &answer(rt, rest)),
        "drop" => desk.withdraw(rt, number),
        "take" => desk.pick_up(rt, number),
        "restart" => desk.restart(rt),
        _ => Seen::Flag(look(rt, &desk.stripe, word, text)),
    };
    is(rt, line, found, seen_of(rt, wanted));
}

/// Plays a line a number of times, with the numbers from 1.
fn play_each(rt: &impl Abort, alloc: Global, desk: &mut Desk, text: &str) {
    let (count, line) = text.split_once(": ").expect(rt, text);
    for n in 1..=number(rt, count) {
        let n = format!(in alloc; "{n}").expect(rt, "memory");
        let line = line.replace(alloc, '#', n.as_str()).expect(rt, "memory");
        play(rt, desk, line.as_str());
    }
}

/// Plays lines.
fn play_all(rt: &impl Abort, alloc: Global, desk: &mut Desk, lines: &str) {
    for line in lines.lines() {
        match line.strip_prefix("each ") {
            Some(text) => play_each(rt, alloc, desk, text),
            None => play(rt, desk, line),
        }
    }
}

/// Plays a case.
fn play_case(rt: &impl Abort, alloc: Global, case: &str) {
    let (_rule, case) = case.split_once('\n').expect(rt, "a rule");
    let (opened, lines) = case.split_once('\n').expect(rt, "a shape");
    let next = first_reservation(rt, opened);
    let mut desk = Desk::new(rt, alloc, &shape(rt, opened), next);
    play_all(rt, alloc, &mut desk, lines);
    desk.close(rt);
}

const PHASES: &str = "\
# With no loader and no writer a put is done at once. Then its session may begin, but not this call once more at this key.
open 100
outside put a 1 = no
begin 1 s1 put a 1 = ok at 0
clear 1 s1 a = yes
admits 1 s1 a = no
idle = yes
==
# A get that is missing asks the loader, another one joins it, and a removal is refused. The joiner waits, and shares the answer.
open 100 read write
outside get a = yes
begin 1 s1 get a = asks loader
begin 2 s2 get a = joins 1
begin 3 s3 remove a = refused Busy
take 2 = waits
clear 2 s2 a = no
commit 1 read 1 = 1 at 0
idle = no
take 2 = 1 at 1 shared 0
idle = yes
==
# A load that is given back has its joiner retry. A write may be given back, too. Nothing is appended.
open 100 read write
begin 1 s1 get a = asks loader
begin 2 s2 get a = joins 1
drop 1 = dropped
take 2 = again
begin 1 s1 put a 1 = asks write 1
drop 1 = dropped
idle = yes
begin 1 s1 contains a = false at 0
==
# A put asks the writer first. If that fails, it isn't done.
open 100 read write
begin 1 s1 put a 1 = asks write 1
commit 1 applyfail 3 = WriterFailed 3 at 0
begin 2 s1 put a 1 = asks write 1
commit 2 apply = ok at 1
begin 3 s1 get a = 1 at 2
==
# A key is reserved for a processor, with its entry.
open 100
outside invoke a = yes
begin 1 s1 invoke a = asks process -
begin 1 s2 invoke a = refused Busy
drop 1 = dropped
idle = yes
begin 2 s1 put a 1 = ok at 0
outside invoke a = yes
begin 3 s1 invoke a = asks process 1
begin 3 s2 invoke a = refused Busy
drop 3 = dropped
idle = yes
begin 4 s1 contains a = true at 1
==
# What is counted: no step that is refused or given back, and an eviction beside the step for which it is made.
open 100 write
begin 1 s1 get a = - at 0
begin 2 s1 put a 1 = asks write 1
commit 2 apply = ok at 1
begin 3 s1 get a = 1 at 2
begin 4 s1 put b 2 = asks write 2
counts 1 1 1 0 0 = yes
drop 4 = dropped
begin 4 s1 put b 2 = asks write 2
begin 5 s2 put b 3 = refused Busy
commit 4 apply = ok at 3
begin 5 s1 put c 3 = asks write 3
commit 5 apply = ok at 5
begin 6 s1 remove c = asks delete
commit 6 apply = true at 6
counts 1 1 3 1 1 = yes
counts 1 1 3 1 0 = no
==
# A conditional call that answers false is a hit if the entry is there, and a miss if it isn't.
open 100
begin 1 s1 removeif a 1 = false at 0
begin 2 s1 put a 1 = ok at 1
begin 3 s1 removeif a 2 = false at 2
begin 4 s1 replaceif a 2 3 = false at 3
counts 2 1 1 0 0 = yes
==
# A processor may have a missing entry loaded.
open 100 read write
outside invoke a = yes
begin 1 s1 invoke a = asks process - loading
begin 1 s2 invoke a = refused Busy
drop 1 = dropped
begin 2 s1 put a 1 = asks write 1
commit 2 apply = ok at 0
begin 3 s1 invoke a = asks process 1
drop 3 = dropped
idle = yes
==
# While a processor has its key, a get answers from the entry, and joins nothing. It is refused if the history lacks places.
open 16 read write
begin 1 s1 put a 1 = asks write 1
commit 1 apply = ok at 0
begin 2 s1 invoke a = asks process 1
begin 2 s2 get a = 1 at 1
drop 2 = dropped
begin 3 s1 invoke b = asks process - loading
begin 3 s2 get b = refused Busy
drop 3 = dropped
begin 1 s3 contains b = false at 2
begin 2 s3 contains b = false at 3
begin 3 s3 contains b = false at 4
begin 4 s3 contains b = false at 5
begin 5 s3 contains b = false at 6
begin 6 s3 contains b = false at 7
begin 7 s3 contains b = false at 8
begin 8 s3 contains b = false at 9
begin 9 s3 contains b = false at 10
begin 10 s3 contains b = false at 11
begin 4 s1 invoke b = asks process - loading
begin 4 s2 get b = refused HistoryFull
drop 4 = dropped
==
# There is room for 64 reservations.
open 400 read write
each 64: begin # s# get k# = asks loader
begin 70 s70 loadall k70 = refused TooManyInFlight
begin 70 s70 loadall k64 = refused Busy
each 64: drop # = dropped
idle = yes
==
# So it is of puts: 64 are under way, the 65th is refused, and so is one whose key is reserved.
open 400 write
each 64: begin # s# put k# 1 = asks write 1
begin 65 s65 put k65 1 = refused TooManyInFlight
begin 65 s65 put k64 1 = refused Busy
each 64: drop # = dropped
idle = yes
==
# There is room for 64 joiners.
open 400 read write
begin 70 s70 get a = asks loader
each 64: begin # s# get a = joins 70
begin 71 s71 get a = refused TooManyJoiners
drop 70 = dropped
each 64: take # = again
idle = yes
==
# No reservation has the last number. Once it is the next one, every first phase is refused, also one that needs no reservation.
open 100 read write from 18446744073709551614
begin 1 s1 put a 1 = asks write 1
begin 1 s2 get b = refused HistoryFull
commit 1 apply = ok at 0
begin 2 s1 put a 2 = refused HistoryFull
begin 2 s1 get a = refused HistoryFull
begin 2 s1 get b = refused HistoryFull
begin 2 s1 contains b = refused HistoryFull
begin 2 s1 invoke a = refused HistoryFull
idle = yes
==
# A number that was given back isn't used again.
open 100 write from 18446744073709551614
begin 1 s1 put a 1 = asks write 1
drop 1 = dropped
begin 1 s1 contains a = refused HistoryFull
idle = yes
==
# So it is at once if the first reservation is to have the last number.
open 100 write from 18446744073709551615
begin 1 s1 contains a = refused HistoryFull
idle = yes
==
# No call has the last number of its session.
open 100 from 18446744073709551613
begin 18446744073709551614 s1 put a 1 = ok at 0
begin 18446744073709551615 s1 get a = refused HistoryFull
begin 1 s2 get a = 1 at 1
idle = yes
==
# A stripe that is restarted answers as a new one: without entries, from its first place, and with all numbers.
open 16 read write from 18446744073709551613
begin 1 s1 get a = asks loader
begin 2 s2 get a = joins 1
commit 1 read 1 = 1 at 0
take 2 = 1 at 1 shared 0
begin 3 s1 put b 2 = asks write 2
commit 3 apply = ok at 2
begin 4 s1 get a = refused HistoryFull
restart = yes
counts 0 0 0 0 0 = yes
begin 1 s1 get a = asks loader
begin 2 s2 get a = joins 1
commit 1 read 3 = 3 at 0
take 2 = 3 at 1 shared 0
begin 3 s1 get b = asks loader
drop 3 = dropped
begin 4 s1 get a = 3 at 2
idle = yes
";

#[test]
fn plays_each_phase(rt: HostRuntime) {
    for case in PHASES.split("==\n") {
        play_case(&rt, rt.alloc(), case);
    }
}

/// Asserts the keys in byte order, appended to a list.
fn lists_keys(rt: &impl Abort, alloc: Global, stripe: &Stripe) {
    let (a, b) = (key(rt, "a"), key(rt, "b"));
    let mut keys = Vec::with_capacity(alloc, 3).expect(rt, "memory");
    keys.push_reserved(b);
    assert!(rt; stripe.config().capacity == 2, "room");
    stripe.keys(&mut keys);
    is(rt, "keys", keys.as_slice(), [b, a, b].as_slice());
}

/// Asserts the entries, the most recently used first.
fn lists_entries(rt: &impl Abort, alloc: Global, stripe: &Stripe) {
    let mut entries = Vec::new(alloc);
    stripe.entries(&mut entries).expect(rt, "memory");
    let wanted = pairs(rt, alloc, "a=1 b=1");
    is(rt, "entries", entries.as_slice(), wanted.as_slice());
}

/// Asserts the last one of two events.
fn lists_events(rt: &impl Abort, alloc: Global, stripe: &Stripe) {
    let mut events = Vec::new(alloc);
    assert!(rt; stripe.events_len() == 2, "two events");
    stripe.append_events(1, 2, &mut events).expect(rt, "memory");
    is(rt, "event", events.as_slice(), [stripe.event(1)].as_slice());
}

#[test]
fn shows_what_it_has(rt: HostRuntime) {
    let config = shape(&rt, "open 100");
    let mut desk = Desk::new(&rt, rt.alloc(), &config, 0);
    let lines = "begin 1 s1 put b 1 = ok at 0\nbegin 2 s1 put a 1 = ok at 1";
    play_all(&rt, rt.alloc(), &mut desk, lines);
    is(&rt, "shape", *desk.stripe.config(), config);
    is(&rt, "number", desk.stripe.number(), 0);
    lists_keys(&rt, rt.alloc(), &desk.stripe);
    lists_entries(&rt, rt.alloc(), &desk.stripe);
    lists_events(&rt, rt.alloc(), &desk.stripe);
    desk.close(&rt);
}

// The least recently used entry of the opening is evicted for a new key.
const OPENED: &str = "\
begin 1 s1 get b = 2 at 0
begin 2 s1 get c = asks loader
commit 2 read 3 = 3 at 2
begin 3 s1 contains a = false at 3
begin 3 s2 get b = 2 at 4";

/// Whether the stripe's history is legal from these entries.
fn is_legal(rt: &impl Abort, alloc: Global, stripe: &Stripe, opening: &[(Key, Value)]) -> bool {
    let mut events = Vec::new(alloc);
    let appended = stripe.append_events(0, stripe.events_len(), &mut events);
    appended.expect(rt, "memory");
    legal(alloc, stripe.config(), opening, &events).expect(rt, "memory")
}

#[test]
fn opens_with_entries(rt: HostRuntime) {
    let config = shape(&rt, "open 100 read");
    let opening = pairs(&rt, rt.alloc(), "a=1 b=2");
    let mut desk = Desk::open_with(&rt, rt.alloc(), &config, &opening);
    assert!(rt;
        is_legal(&rt, rt.alloc(), &desk.stripe, &[]),
        "nothing has happened"
    );
    play_all(&rt, rt.alloc(), &mut desk, OPENED);
    assert!(rt;
        is_legal(&rt, rt.alloc(), &desk.stripe, &opening),
        "from its opening"
    );
    assert!(rt;
        !is_legal(&rt, rt.alloc(), &desk.stripe, &[]),
        "from nothing"
    );
    desk.close(&rt);
}

/// The stripes of a shape, which open with these entries.
fn opened(rt: &impl Abort, alloc: Global, config: &Config, text: &str) -> Vec<Stripe> {
    config.check().expect(rt, "a shape");
    let entries = pairs(rt, alloc, text);
    assert!(rt; is_once(rt, alloc, &entries), "each key once");
    let reopened = reopen(alloc, config, Origin::Played, &entries);
    reopened.expect(rt, "memory").stripes
}

// The number of stripes and the entries of one cache, those of another cache, and whether any two of their stripes share a key.
// By the sum of its bytes a is of stripe 1 of two, and b of stripe 0.
const SHARED: &[(usize, &str, usize, &str, bool)] = &[
    (1, "a=1 b=2", 1, "b=3", true),
    (1, "a=1 b=2", 1, "c=3", false),
    (2, "a=1 b=2", 2, "b=3", true),
    (2, "a=1", 2, "b=1", false),
    (1, "a=1", 2, "a=1", true),
    (1, "a=1", 2, "b=1", false),
];

#[test]
fn finds_keys_of_two_stripes(rt: HostRuntime) {
    for (one, text, other, others, want) in SHARED {
        let config = shape(&rt, "open 100");
        let (config, next) = (
            Config {
                stripes: *one,
                ..config
            },
            Config {
                stripes: *other,
                ..config
            },
        );
        let (stripes, others) = (
            opened(&rt, rt.alloc(), &config, text),
            opened(&rt, rt.alloc(), &next, others),
        );
        let found = stripes
            .iter()
            .any(|s| others.iter().any(|o| s.shares_key(o)));
        is(&rt, text, found, *want);
    }
}
