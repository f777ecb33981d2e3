//! Each call of a loader or a writer fails in turn, over a tour of the library.
use super::outside::Outside;
use super::stage::{bring, plays};
use super::trial::{FAULTS, Trial};
use super::*;

/// A day of a cache, from the first load to the last removal, in which each call with many keys is made; and then the calls with one key
/// that it lacks, and some with many on what it has left. A `keep` is what each piece of a `loadAll` does; the whole one comes after it.
const TOUR: [&str; 18] = [
    "getall a b",
    "putall b=2",
    "invokeall a b",
    "keep a c",
    "removeall a",
    "clear",
    "get a",
    "get b",
    "removeevery",
    "removeevery",
    "getall a b c",
    "putall a=7 b=8 d=9",
    "put e=5",
    "invoke a",
    "replace a f",
    "remove b",
    "removeall a d",
    "putall a=1 b=1 e=1",
];

/// The numbers of sessions that play it beside each other.
const ALONE: usize = 1;

const BESIDE: usize = 3;

/// Which fronts of the tour are played, and what that is to show.
#[derive(Clone, Copy)]
struct Extent {
    /// How many lines the shortest of them has. The longest is the tour.
    shortest: usize,
    /// How many runs there are by one session, and how many of them meet a fault.
    alone: (u64, u64),
    /// More runs than this meet a fault, by one session and by several.
    least: u64,
}

const WHOLE_TOUR: Extent = Extent {
    shortest: TOUR.len(),
    alone: (66, 58),
    least: 50,
};

const EACH_FRONT: Extent = Extent {
    shortest: 0,
    alone: (1_254, 574),
    least: 500,
};

/// Which run is next: each front of the tour by one session, with each fault, at the first call of its loader or writer, at the second
/// one, and so on, until no run meets a fault; and then the same by three sessions.
#[derive(Drop)]
struct Sweep {
    extent: Extent,
    sessions: usize,
    call: u64,
    number: usize,
    /// How many runs by so many sessions there were.
    runs: u64,
    /// How many of them have met a fault; and how many at earlier calls.
    faults: u64,
    earlier: u64,
}

impl Sweep {
    fn of(extent: Extent, sessions: usize) -> Self {
        Sweep {
            extent,
            sessions,
            call: 1,
            number: 0,
            runs: 0,
            faults: 0,
            earlier: 0,
        }
    }

    /// How many fronts of the tour are played.
    fn fronts(&self) -> usize {
        TOUR.len() + 1 - self.extent.shortest
    }

    /// Goes on to the next call, or to more sessions. It says whether there is one.
    fn goes_on(&mut self, rt: &impl Abort) -> bool {
        if self.number < FAULTS.len() * self.fronts() {
            return true;
        }
        self.number = 0;
        if self.faults > self.earlier {
            self.call += 1;
            self.earlier = self.faults;
            return true;
        }
        self.has_met_enough(rt);
        let was_alone = self.sessions == ALONE;
        *self = Sweep::of(self.extent, BESIDE);
        was_alone
    }

    /// Which runs beside others meet a fault depends on who comes first.
    fn has_met_enough(&self, rt: &impl Abort) {
        if self.sessions == ALONE {
            is(rt, (self.runs, self.faults), self.extent.alone);
        }
        assert!(rt; self.faults > self.extent.least);
    }

    fn next(&mut self, rt: &impl Abort) -> Option<Trial> {
        if !self.goes_on(rt) {
            return None;
        }
        let (fault, front) = (self.number / self.fronts(), self.number % self.fronts());
        self.number += 1;
        Some(Trial {
            fault: FAULTS[fault],
            call: self.call,
            lines: self.extent.shortest + front,
            sessions: self.sessions,
        })
    }

    /// Notes a run.
    fn note(&mut self, has_met: bool) {
        self.runs += 1;
        if has_met {
            self.faults += 1;
        }
    }
}

/// Plays each run of a sweep.
macro_rules! sweep {
    ($rt:expr, $extent:expr) => {{
        let alloc = $rt.alloc();
        let mut sweep = Sweep::of($extent, ALONE);
        while let Some(trial) = sweep.next(&$rt) {
            let outside = Outside::new(&$rt, alloc, &trial);
            let mut brought = Vec::new(alloc);
            for who in 0..trial.sessions {
                let loader = boxed!($rt, Loader, outside.loader($rt, alloc, who));
                let writer = boxed!($rt, Writer, outside.writer($rt, alloc, who));
                bring(&$rt, &mut brought, loader, writer);
            }
            let lines = &TOUR[..trial.lines];
            sweep.note(plays(&$rt, alloc, &outside, brought, lines));
        }
    }};
}

#[test]
fn each_call_fails_in_turn(rt: HostRuntime) {
    sweep!(rt, WHOLE_TOUR);
}

/// The same, and with each front of the tour alone.
#[test]
#[ignore]
fn each_call_fails_in_turn_after_each_front(rt: HostRuntime) {
    sweep!(rt, EACH_FRONT);
}
