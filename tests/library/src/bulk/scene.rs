//! A scene, as a text: a cache, what is outside it, what its sessions do on it, and what there is at the end. Its first lines are
//!
//!     open 2 4 100                the cache: stripes, capacity and history; `lives` behind them, if it lives on; `off`, if both
//!                                 options are off
//!     before a=1                  what the store has before
//!     sessions 2 loaders          how many sessions there are; and the loaders, or the `writers`, of two wait for each other at each
//!                                 call; `every 5`, each loader and each writer fails at each fifth call, those of the first session
//!                                 with 5, of the second one with 7, and so on; `loaders every 1` is both
//!     fault 1 4 b                 the fault of each writer: at its first call it fails with 4, leaves b and adds z=9; or, `answers
//!                                 z=9 c=8`, what each loader answers at its first call, too
//!     end stripes 6 a=1, 6        what there is once the cache has ended, with `;` between
use super::*;
use crate::common::words::first_word;

/// What a text says of a cache, of what is outside it, and of what its sessions do.
#[derive(Clone, Copy)]
pub struct Scene<'a> {
    pub shape: Config,
    /// Whether the cache lives on.
    pub lives: bool,
    pub before: &'a str,
    pub sessions: usize,
    pub loaders_wait: bool,
    pub writers_wait: bool,
    /// Loaders and writers fail once in so many calls. At 0 they never do.
    pub every: u32,
    pub fault: &'a str,
    pub end: &'a str,
    /// What the sessions do, in lines.
    pub lines: &'a str,
}

/// The first word of the first line is this. What follows it, and the other lines.
fn head<'a>(rt: &impl Abort, text: &'a str, word: &str) -> (&'a str, &'a str) {
    let (line, rest) = text.split_once('\n').expect(rt, text);
    let (found, words) = first_word(line);
    assert_eq!(rt; found, word);
    (words, rest)
}

/// The shape that words say: stripes, capacity and history. Both options are on, or both are off.
fn shape_of(rt: &impl Abort, words: &str, are_on: bool) -> Config {
    let (stripes, rest) = first_word(words);
    let (capacity, history) = first_word(rest);
    Config {
        stripes: stripes.parse().ok().expect(rt, words),
        capacity: capacity.parse().ok().expect(rt, words),
        history: history.parse().ok().expect(rt, words),
        read_through: are_on,
        write_through: are_on,
    }
}

/// The number that follows `every`, or 0.
fn every_of(words: &str) -> u32 {
    let (_before, number) = words.split_once("every ").unwrap_or(("", ""));
    number.parse().ok().unwrap_or(0)
}

/// The scene that a text tells.
pub fn scene_of<'a>(rt: &impl Abort, text: &'a str) -> Scene<'a> {
    let (shape, text) = head(rt, text, "open");
    let (before, text) = head(rt, text, "before");
    let (sessions, text) = head(rt, text, "sessions");
    let (fault, text) = head(rt, text, "fault");
    let (end, lines) = head(rt, text, "end");
    let (count, manner) = first_word(sessions);
    let numbers = shape.trim_end_matches(" lives").trim_end_matches(" off");
    Scene {
        shape: shape_of(rt, numbers, !shape.ends_with(" off")),
        lives: shape.ends_with(" lives"),
        before,
        sessions: count.parse().ok().expect(rt, sessions),
        loaders_wait: manner.starts_with("loaders"),
        writers_wait: manner.starts_with("writers"),
        every: every_of(manner),
        fault,
        end,
        lines,
    }
}
