//! The desk, each function once, and each misuse, as lines of text.
//!
//! The words are those of [`stripes`](super::stripes), with these differences: `SESSION` is a session, and the desk numbers the
//! calls and the tickets itself, both from 0.
//!
//! - `begin SESSION OP KEY [VALUE]`: as a stripe's first phase, or `full`, `shut` or `misuse`;
//! - `load TICKET ANSWER`, `write TICKET ANSWER`, a last phase: `REPLY at PLACE` or `misuse`; `process TICKET [apply] EFFECT`,
//!   the last phase of a processor, after which the writer has answered, or has not;
//! - `drop TICKET`: `dropped` or `misuse`;
//! - `take SESSION CALL KEY TICKET`, a joiner asks for its answer: as a stripe's, or `misuse`;
//! - `hit SESSION KEY`: the value and the call's number, as `1 at CALL`, or `no`;
//! - `moves KEPT LEFT VICTIM VALUE`, the values that came and went with the last step, with `-` for nothing, and `gone` in KEPT's place
//!   if the key's entry was evicted, since it was invalidated: `yes` or `no`;
//! - `invalidate KEY`, `invalidateall`, `shut`: `yes` or `no`; `sweep ANSWER`, with `open`, `evicted`, `full` or `noplace`: `yes` or `no`;
//! - `shared COUNT`, the number of answers that the last commit has parked: `yes` or `no`;
//! - `entry KEY VALUE`, `events COUNT`, `counts ..`, `idle`, `end`: `yes` or `no`.
//!
//! A case is a comment with its rule, a line `open HISTORY [read] [write] [keeps]`, and lines.
use super::script::{answer, caller, event, first_word, key, number, op, value_or_none};
use super::stripes::words::{Seen, seen_of};
use super::stripes::{shape, statistics};
use super::{is, pairs};
use jc_model::{Cause, Op, Reply, WriteAnswer};
use jc_stripe::{CommitDone, Desk, FirstAnswer, OpenFault, PickUpAnswer, SweepAnswer, ValueMoves};
use jc_types::{Caller, Config, Key, Value};
use std::alloc::Global;
use std::process::Abort;

/// A desk, and the reply and moves of its last phase.
#[derive(Drop)]
struct Driver {
    desk: Desk,
    reply: Reply,
    moves: ValueMoves,
    shared: u32,
}

/// Why the key's own entry was evicted, by the word for what came.
fn own_cause(kept: &str) -> Option<Cause> {
    if kept == "gone" {
        Some(Cause::Invalidated)
    } else {
        None
    }
}

fn swept(rt: &impl Abort, word: &str) -> SweepAnswer {
    match word {
        "open" => SweepAnswer::Open,
        "evicted" => SweepAnswer::Evicted,
        "full" => SweepAnswer::Full,
        "noplace" => SweepAnswer::NoPlace,
        _ => panic!(rt; "no answer of a sweep"),
    }
}

/// A call's number, where few calls are made.
fn short(call: u64) -> u32 {
    if call < 1000 { call as u32 } else { 1000 }
}

impl Driver {
    /// A desk over a stripe that opens with these entries.
    fn open(rt: &impl Abort, alloc: Global, opened: &str, contents: &[(Key, Value)]) -> Driver {
        let config = shape(rt, opened);
        let keeps_events = opened.contains("keeps");
        let desk = Desk::open(alloc, &config, 0, keeps_events, contents);
        Driver {
            desk: desk.ok().expect(rt, "a desk"),
            reply: Reply::Unit,
            moves: ValueMoves::new(),
            shared: 0,
        }
    }

    fn begin(&mut self, rt: &impl Abort, session: u32, key: &Key, op: &Op) -> Seen {
        let (_call, asked) = self
            .desk
            .begin(session, key, op, &mut self.reply, &mut self.moves);
        match asked {
            FirstAnswer::Done(place) => Seen::Step(self.reply, place),
            FirstAnswer::Asks(ticket) => self.asked(rt, ticket),
            FirstAnswer::Joined(load) => Seen::Joins(load),
            FirstAnswer::Refused(refusal) => Seen::Refused(refusal),
            FirstAnswer::Full => Seen::Full,
            FirstAnswer::Shut => Seen::Shut,
            FirstAnswer::Misuse => Seen::Misuse,
        }
    }

    /// The partner that the newest ticket asks. The ticket has this number.
    fn asked(&self, rt: &impl Abort, ticket: u64) -> Seen {
        let newest = self.desk.newest().expect(rt, "a ticket");
        is(rt, "the newest ticket", newest.number, ticket);
        Seen::Asks(newest.first)
    }

    fn done(&mut self, done: Option<CommitDone>) -> Seen {
        match done {
            Some(done) => {
                self.shared = done.shared;
                Seen::Step(self.reply, done.place)
            }
            None => Seen::Misuse,
        }
    }

    fn load(&mut self, rt: &impl Abort, ticket: u64, text: &str) -> Seen {
        let said = answer(rt, text).load;
        let done = self
            .desk
            .commit_load(ticket, said, &mut self.reply, &mut self.moves);
        self.done(done)
    }

    fn write(&mut self, rt: &impl Abort, ticket: u64, text: &str) -> Seen {
        let said = answer(rt, text).write;
        let done = self
            .desk
            .commit_write(ticket, said, &mut self.reply, &mut self.moves);
        self.done(done)
    }

    fn process(&mut self, rt: &impl Abort, ticket: u64, text: &str) -> Seen {
        let (write, effect) = match text.strip_prefix("apply ") {
            Some(effect) => (WriteAnswer::Done, effect),
            None => (WriteAnswer::NotAsked, text),
        };
        let said = answer(rt, effect);
        let done = self.desk.commit_process(
            ticket,
            said.load,
            said.process,
            write,
            &mut self.reply,
            &mut self.moves,
        );
        self.done(done)
    }

    fn withdraw(&mut self, ticket: u64) -> Seen {
        if self.desk.withdraw(ticket, &mut self.moves) {
            Seen::Dropped
        } else {
            Seen::Misuse
        }
    }

    fn pick_up(&mut self, caller: Caller, key: &Key, load: u64) -> Seen {
        match self.desk.pick_up(caller, key, load, &mut self.reply) {
            PickUpAnswer::Answer { place, shared_with } => {
                Seen::Shared(self.reply, place, shared_with)
            }
            PickUpAnswer::Again => Seen::Again,
            PickUpAnswer::NotYet => Seen::Waits,
            PickUpAnswer::Misuse => Seen::Misuse,
        }
    }

    fn hit(&mut self, session: u32, key: &Key) -> Seen {
        let mut value = Value::default();
        match self.desk.hit(session, key, &mut value) {
            Some(call) => Seen::Step(Reply::Value(Some(value)), short(call)),
            None => Seen::Flag(false),
        }
    }

    /// Whether these values came and went with the last step.
    fn has_moved(&self, rt: &impl Abort, text: &str) -> bool {
        let (kept, rest) = first_word(text);
        let (left, rest) = first_word(rest);
        let (victim, evicted) = first_word(rest);
        let (gone, value) = match self.moves.victim() {
            Some((key, value)) => (Some(*key), Some(*value)),
            None => (None, None),
        };
        let wanted = if victim == "-" {
            None
        } else {
            Some(key(rt, victim))
        };
        self.moves.is_kept() == (kept == "kept")
            && self.moves.left().copied() == value_or_none(rt, left)
            && gone == wanted
            && value == value_or_none(rt, evicted)
            && self.moves.own() == own_cause(kept)
    }

    fn forget(&mut self, rt: &impl Abort, word: &str, text: &str) -> bool {
        match word {
            "invalidate" => self.desk.invalidate(&key(rt, text), &mut self.moves),
            "invalidateall" => {
                self.desk.invalidate_all();
                true
            }
            "sweep" => self.desk.sweep(&mut self.moves) == swept(rt, text),
            _ => self.desk.is_shut(),
        }
    }

    fn look(&mut self, rt: &impl Abort, word: &str, text: &str) -> bool {
        let (first, rest) = first_word(text);
        match word {
            "idle" => self.desk.is_idle(),
            "end" => self.desk.end_generation(),
            "moves" => self.has_moved(rt, text),
            "counts" => self.desk.statistics() == statistics(rt, text),
            "shared" => self.shared == number(rt, first),
            "events" => self.desk.events_len() == number(rt, first) as usize,
            "entry" => self.desk.entry(&key(rt, first)).copied() == value_or_none(rt, rest),
            _ => panic!(rt; "no test"),
        }
    }
}

fn begin(rt: &impl Abort, driver: &mut Driver, session: &str, text: &str) -> Seen {
    let (name, text) = first_word(text);
    let (at, value) = first_word(text);
    let session = caller(rt, "0", session).session;
    driver.begin(rt, session, &key(rt, at), &op(rt, name, value))
}

fn take(rt: &impl Abort, driver: &mut Driver, session: &str, text: &str) -> Seen {
    let (call, text) = first_word(text);
    let (at, load) = first_word(text);
    let caller = caller(rt, call, session);
    driver.pick_up(caller, &key(rt, at), u64::from(number(rt, load)))
}

/// A last phase of the ticket with this number.
fn last_phase(rt: &impl Abort, driver: &mut Driver, word: &str, text: &str) -> Seen {
    let (ticket, rest) = first_word(text);
    let ticket = u64::from(number(rt, ticket));
    match word {
        "load" => driver.load(rt, ticket, rest),
        "write" => driver.write(rt, ticket, rest),
        "process" => driver.process(rt, ticket, rest),
        _ => driver.withdraw(ticket),
    }
}

/// Carries out a line, and compares the result.
fn play(rt: &impl Abort, driver: &mut Driver, line: &str) {
    let (done, wanted) = line.split_once(" = ").expect(rt, line);
    let (word, text) = first_word(done);
    let (first, rest) = first_word(text);
    let found = match word {
        "begin" => begin(rt, driver, first, rest),
        "load" | "write" | "process" | "drop" => last_phase(rt, driver, word, text),
        "take" => take(rt, driver, first, rest),
        "hit" => driver.hit(caller(rt, "0", first).session, &key(rt, rest)),
        "invalidate" | "invalidateall" | "sweep" | "shut" => {
            Seen::Flag(driver.forget(rt, word, text))
        }
        _ => Seen::Flag(driver.look(rt, word, text)),
    };
    is(rt, line, found, seen_of(rt, wanted));
}

/// Plays a case.
fn play_case(rt: &impl Abort, alloc: Global, case: &str) {
    let (_rule, case) = case.split_once('\n').expect(rt, "a rule");
    let (opened, lines) = case.split_once('\n').expect(rt, "a shape");
    let mut driver = Driver::open(rt, alloc, opened, &[]);
    for line in lines.lines() {
        play(rt, &mut driver, line);
    }
}

const CASES: &str = "\
# A put is done at once if nobody is to be asked, and its value is kept. Then a get hits.
open 100
begin s1 put a 1 = ok at 0
moves kept - - - = yes
hit s1 a = 1 at 1
entry a 1 = yes
entry b - = yes
hit s1 b = no
events 2 = yes
counts 1 0 1 0 0 = yes
idle = yes
==
# What came and went: another value, an equal one, none that is there, and a removal.
open 100
begin s1 put a 1 = ok at 0
begin s1 put a 2 = ok at 1
moves kept 1 - - = yes
begin s1 replace a 2 = true at 2
moves - - - - = yes
begin s1 replaceif a 1 3 = false at 3
moves - - - - = yes
begin s1 remove a = true at 4
moves - 2 - - = yes
begin s1 remove a = false at 5
moves - - - - = yes
==
# An insertion into a full stripe has the least recently used entry evicted, whose value goes. A new value of a key that is there has none.
open 100
begin s1 put a 1 = ok at 0
begin s1 put b 2 = ok at 1
begin s1 put b 3 = ok at 2
moves kept 2 - - = yes
hit s1 a = 1 at 3
begin s1 put c 4 = ok at 5
moves kept - b 3 = yes
counts 1 0 4 0 1 = yes
==
# A loader's ticket is committed once, by what a loader answers. Whoever joined is told, once, and nobody else is.
open 100 read
begin s1 get a = asks loader
begin s2 get a = joins 0
idle = no
write 0 apply = misuse
process 0 keeps = misuse
load 1 read 1 = misuse
take s2 1 a 0 = waits
load 0 read 1 = 1 at 0
moves kept - - - = yes
shared 1 = yes
load 0 read 1 = misuse
drop 0 = misuse
take s1 1 a 0 = misuse
take s2 2 a 0 = misuse
take s2 1 b 0 = misuse
take s2 1 a 1 = misuse
take s2 1 a 0 = 1 at 1 shared 0
take s2 1 a 0 = misuse
idle = yes
==
# A load that finds nothing keeps nothing, and so does one that fails.
open 100 read
begin s1 get a = asks loader
load 0 read - = - at 0
moves - - - - = yes
begin s1 get a = asks loader
load 1 readfail 7 = LoaderFailed 7 at 1
moves - - - - = yes
==
# A ticket that is given back has its joiner retry. Its number serves no more.
open 100 read
drop 0 = misuse
begin s1 get a = asks loader
begin s2 get a = joins 0
drop 0 = dropped
drop 0 = misuse
load 0 read 1 = misuse
take s2 1 a 0 = again
take s2 1 a 0 = misuse
events 0 = yes
idle = yes
==
# A writer's ticket is committed by what a writer answers. What is there meanwhile goes or stays with its answer.
open 100 write
begin s1 put a 1 = asks write 1
load 0 read 1 = misuse
process 0 keeps = misuse
write 0 apply = ok at 0
moves kept - - - = yes
begin s1 remove a = asks delete
write 1 applyfail 3 = WriterFailed 3 at 1
moves - - - - = yes
begin s1 remove a = asks delete
write 2 apply = true at 2
moves - 1 - - = yes
==
# A processor's ticket is committed by what it did. The writer answers exactly if it was to be asked.
open 100 write
begin s1 invoke a = asks process -
load 0 read 1 = misuse
write 0 apply = misuse
process 0 sets 1 = misuse
process 0 apply keeps = misuse
process 0 apply sets 1 = - at 0
moves kept - - - = yes
begin s1 invoke a = asks process 1
process 1 keeps = - at 1
moves - - - - = yes
begin s1 invoke a = asks process 1
process 2 apply removes = - at 2
moves - 1 - - = yes
==
# A session has one call out here. The next one of it, at any key, is a misuse, and nothing is done.
open 100 read
begin s1 get a = asks loader
begin s1 get b = misuse
begin s1 get a = misuse
hit s1 b = no
begin s2 get a = joins 0
begin s2 get b = misuse
load 0 read 1 = 1 at 0
begin s2 get b = misuse
take s2 1 a 0 = 1 at 1 shared 0
begin s1 contains b = false at 2
begin s2 contains b = false at 3
idle = yes
==
# A key that is reserved is refused, also to a desk.
open 100 write
begin s1 put a 1 = asks write 1
begin s2 put a 2 = refused Busy
drop 0 = dropped
==
# An invalidated key's entry goes at once, without a step and uncounted, and its value is told.
open 100
begin s1 put a 1 = ok at 0
invalidate a = yes
moves gone 1 - - = yes
entry a - = yes
invalidate a = yes
moves - - - - = yes
shut = no
events 2 = yes
counts 0 0 1 0 0 = yes
begin s1 contains a = false at 2
==
# That of a key that is being loaded goes with the end of the load. Who begins meanwhile is busy, who had joined is told.
open 100 read
begin s1 get a = asks loader
begin s2 get a = joins 0
invalidate a = yes
moves - - - - = yes
begin s3 get a = refused Busy
begin s3 contains a = refused Busy
load 0 read 1 = 1 at 0
moves gone - - - = yes
shared 1 = yes
take s2 1 a 0 = 1 at 1 shared 0
entry a - = yes
events 3 = yes
begin s3 get a = asks loader
==
# That of a key that is being written goes with the end of the write, also if it fails, or if the ticket is given back.
open 100 write
begin s1 put a 1 = asks write 1
write 0 apply = ok at 0
begin s1 put a 2 = asks write 2
invalidate a = yes
hit s2 a = no
entry a 1 = yes
write 1 applyfail 3 = WriterFailed 3 at 1
moves gone 1 - - = yes
entry a - = yes
begin s1 put a 1 = asks write 1
write 2 apply = ok at 3
begin s1 put a 2 = asks write 2
invalidate a = yes
drop 3 = dropped
moves gone 1 - - = yes
entry a - = yes
idle = yes
==
# When all keys are invalidated no call begins before the entries are swept, one at a time; those of reserved keys go with the reservations.
open 100 write
begin s1 put a 1 = asks write 1
write 0 apply = ok at 0
begin s1 put b 2 = asks write 2
write 1 apply = ok at 1
sweep open = yes
begin s1 put b 3 = asks write 3
invalidateall = yes
shut = yes
begin s2 contains a = shut
hit s2 a = no
sweep evicted = yes
moves - - a 1 = yes
sweep open = yes
moves - - - - = yes
shut = no
begin s2 contains b = refused Busy
write 2 apply = ok at 3
moves gone 2 - - = yes
begin s2 contains b = false at 5
counts 0 0 3 0 0 = yes
==
# A generation without events, or with a parked answer, doesn't end.
open 100 read
end = no
begin s1 get a = asks loader
begin s2 get a = joins 0
end = no
load 0 read 1 = 1 at 0
end = no
take s2 1 a 0 = 1 at 1 shared 0
end = yes
events 0 = yes
end = no
entry a 1 = yes
counts 0 2 0 0 0 = yes
==
# A generation ends while a load is out, and its entries stay.
open 100 read
begin s1 contains b = false at 0
begin s1 get a = asks loader
end = yes
load 0 read 1 = 1 at 0
events 1 = yes
";

#[test]
fn plays_each_phase_at_a_desk(rt: HostRuntime) {
    for case in CASES.split("==\n") {
        play_case(&rt, rt.alloc(), case);
    }
}

// The stripes, the stripe's number, its contents, and why no desk opens.
const OPENINGS: &[(usize, usize, &str, Option<OpenFault>)] = &[
    (1, 0, "a=1 b=2", None),
    (2, 1, "a=1 c=2", None),
    (2, 1, "a=1 b=2", Some(OpenFault::Contents)),
    (1, 0, "a=1 a=1", Some(OpenFault::Contents)),
    (1, 0, "a=1 b=2 c=3", Some(OpenFault::Contents)),
    (1, 1, "a=1", Some(OpenFault::Shape)),
    (0, 0, "a=1", Some(OpenFault::Shape)),
    (65, 0, "a=1", Some(OpenFault::Shape)),
];

#[test]
fn opens_with_what_fits(rt: HostRuntime) {
    for (stripes, number, text, want) in OPENINGS {
        let config = Config {
            stripes: *stripes,
            ..shape(&rt, "open 100")
        };
        let contents = pairs(&rt, rt.alloc(), text);
        let desk = Desk::open(rt.alloc(), &config, *number, false, &contents);
        is(&rt, text, desk.err(), *want);
    }
}

#[test]
fn takes_keys_of_its_stripe(rt: HostRuntime) {
    let config = Config {
        stripes: 2,
        ..shape(&rt, "open 100")
    };
    let desk = Desk::open(rt.alloc(), &config, 1, false, &[]);
    let mut driver = Driver {
        desk: desk.ok().expect(&rt, "a desk"),
        reply: Reply::Unit,
        moves: ValueMoves::new(),
        shared: 0,
    };
    play(&rt, &mut driver, "begin s1 get b = misuse");
    play(&rt, &mut driver, "hit s1 b = no");
    play(&rt, &mut driver, "invalidate b = no");
    play(&rt, &mut driver, "invalidate a = yes");
    play(&rt, &mut driver, "begin s1 get a = - at 0");
}

/// The entries of a desk that opened with these, the most recently used first.
fn lists_entries(rt: &impl Abort, alloc: Global, driver: &Driver, text: &str) {
    let mut entries = Vec::new(alloc);
    driver.desk.entries(&mut entries).expect(rt, "memory");
    let wanted = pairs(rt, alloc, text);
    is(rt, text, entries.as_slice(), wanted.as_slice());
}

#[test]
fn lists_what_a_desk_has(rt: HostRuntime) {
    let opening = pairs(&rt, rt.alloc(), "a=1 b=2");
    let mut driver = Driver::open(&rt, rt.alloc(), "open 100", &opening);
    lists_entries(&rt, rt.alloc(), &driver, "a=1 b=2");
    play(&rt, &mut driver, "hit s1 b = 2 at 0");
    lists_entries(&rt, rt.alloc(), &driver, "b=2 a=1");
    let event = event(&rt, "0 s1 get b, is 2");
    assert!(&rt; driver.desk.events_len() == 1, "one event");
    is(&rt, "event", driver.desk.event(0), event);
}

/// Fills a generation with room for 16 events: after 14 a step with two evictions may lack room.
fn fill(rt: &impl Abort, driver: &mut Driver) {
    for _ in 0..14 {
        play_looking(rt, driver);
    }
}

/// A call that adds one event, whatever the place.
fn play_looking(rt: &impl Abort, driver: &mut Driver) {
    let seen = driver.begin(rt, 1, &key(rt, "a"), &Op::ContainsKey);
    assert!(rt; matches!(seen, Seen::Step(_, _)), "a step");
}

// A full generation whose events are to be taken first: nothing is done until it is ended.
const KEPT: &str = "\
events 14 = yes
begin s1 put a 1 = full
hit s1 a = no
events 14 = yes
end = yes
events 0 = yes
begin s1 put a 1 = ok at 0
counts 0 0 1 0 0 = yes";

// A generation that nobody reads ends by itself, and its counts stay.
const RENEWED: &str = "\
events 14 = yes
begin s1 put a 1 = ok at 0
events 1 = yes
hit s1 a = 1 at 15
counts 1 0 1 0 0 = yes";

fn play_full(rt: &impl Abort, alloc: Global, opened: &str, lines: &str) {
    let mut driver = Driver::open(rt, alloc, opened, &[]);
    fill(rt, &mut driver);
    for line in lines.lines() {
        play(rt, &mut driver, line);
    }
}

#[test]
fn ends_a_full_generation(rt: HostRuntime) {
    play_full(&rt, rt.alloc(), "open 16 keeps", KEPT);
    play_full(&rt, rt.alloc(), "open 16", RENEWED);
}
