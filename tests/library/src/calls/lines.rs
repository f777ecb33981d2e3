//! Lines of a session: calls on one key, and lines that say what there is by then: what is in the store, and how many steps the
//! session has made. A line that begins with `# ` is a comment. The counts of a call may be left out.
//!
//!     get a = 1 | 1 0 0
//!     get a = 1
//!     stored a=1
//!     own 2
//!     ends 2 0             the first stripe's generation is ended: its events, and how many ended before, or a dash if none may end
//!     counts 1 1 0 0 0     what the cache counts by then: hits, misses, puts, removals, evictions
//!
//! `skip N` has the next call begin by the number N. `invalidate a` and `invalidateall` forget a key, or all.
//!
//! `withdraw get a` begins a call by phases, which has to reserve its key and asks nobody. It says so as a loader that waits does, and
//! gives the call up when such a loader may answer.
//!
//! Between threads: `await` waits until a loader or a writer that waits was asked, `raise` lets it answer, and `rest` lets other
//! threads go on.
use super::answers::op_of;
use super::phases::{gives_up, reserve};
use super::*;
use jc_cache::Statistics;

/// A call, its answer, and the counts by then, if a line says any.
pub fn parts<'a>(rt: &impl Abort, line: &'a str) -> (&'a str, &'a str, Option<&'a str>) {
    let (call, counts) = match line.split_once(" | ") {
        Some((call, counts)) => (call, Some(counts)),
        None => (line, None),
    };
    let (call, answer) = call.split_once(" = ").expect(rt, "a call and its answer");
    (call, answer, counts)
}

/// A number, and what follows it.
fn number<'a>(rt: &impl Abort, text: &'a str) -> (u64, &'a str) {
    let (word, rest) = first_word(text);
    (word.parse().ok().expect(rt, text), rest)
}

/// Hits, misses, puts, removals and evictions, in this order.
pub fn statistics(rt: &impl Abort, text: &str) -> Statistics {
    let (hits, rest) = number(rt, text);
    let (misses, rest) = number(rt, rest);
    let (puts, rest) = number(rt, rest);
    let (removals, rest) = number(rt, rest);
    let (evictions, _) = number(rt, rest);
    Statistics {
        hits,
        misses,
        puts,
        removals,
        evictions,
    }
}

/// Ends the generation of the first stripe, which has so many events, and so many before it; or none may end.
fn ends<R: Abort + Wait>(rt: &R, alloc: Global, cache: &Cache, session: &mut Session, text: &str) {
    let (events, before) = number(rt, text);
    assert!(rt; 0 < cache.config().stripes);
    let mut found = Vec::new(alloc);
    let ended = cache.end_generation(rt, session, 0, &mut found);
    is(rt, ended.ok(), Some(before.parse().ok()));
    is(rt, found.len() as u64, events);
}

impl Desk {
    /// Makes the call that a line says. It is to answer what the line says, and the counts are to be these afterwards.
    fn call<R: Abort + Wait>(
        &self,
        rt: &R,
        alloc: Global,
        cache: &Cache,
        session: &mut Session,
        line: &str,
    ) {
        let (call, answer, counts) = parts(rt, line);
        let found = called(rt, alloc, cache, session, call);
        is_at(rt, line, found, answer_of(rt, answer));
        if let Some(counts) = counts {
            self.counted(rt, counts);
        }
    }

    /// Begins a call, and gives it up when loaders that wait may answer. A text says its operation, its key, and perhaps a value.
    fn withdraw<R: Abort + Wait>(&self, rt: &R, cache: &Cache, session: &mut Session, text: &str) {
        let (op, rest) = first_word(text);
        let (at, value) = first_word(rest);
        let op = op_of(rt, op, value);
        let ticket = reserve(rt, cache, session, &key(rt, at), &op);
        is(rt, self.signals.wait_as_asked(), Ok(()));
        gives_up(rt, cache, session, ticket);
    }

    /// Does what a line says.
    pub fn play<R: Abort + Wait>(
        &self,
        rt: &R,
        alloc: Global,
        cache: &Cache,
        session: &mut Session,
        line: &str,
    ) {
        let (word, rest) = first_word(line);
        match word {
            "" => {}
            "stored" => self.holds(rt, alloc, rest),
            "counts" => is(rt, cache.statistics(rt, session), statistics(rt, rest)),
            "ends" => ends(rt, alloc, cache, session, rest),
            "own" => is(rt, Some(session.own()), rest.parse().ok()),
            "invalidate" => cache.invalidate(rt, session, &key(rt, rest)),
            "invalidateall" => cache.invalidate_all(rt, session),
            "skip" => cache.skip_to(session, rest.parse().ok().expect(rt, rest)),
            "withdraw" => self.withdraw(rt, cache, session, rest),
            "await" => self.signals.wait_for_ask(rt),
            "raise" => self.signals.raise(),
            "rest" => signals::rest(),
            _ => self.call(rt, alloc, cache, session, line),
        }
    }

    /// Does what each part of a line says, which has a semicolon between two of them.
    pub fn plays<R: Abort + Wait>(
        &self,
        rt: &R,
        alloc: Global,
        cache: &Cache,
        session: &mut Session,
        text: &str,
    ) {
        for line in text.split("; ") {
            self.play(rt, alloc, cache, session, line);
        }
    }
}
