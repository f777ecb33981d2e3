//! What a cache and a session are refused for, and a history that is full.
use super::*;
use jc_types::{Caller, Field, SESSIONS_MAX};

fn refuses(rt: &impl Abort, alloc: Global, config: &Config, field: Field) {
    is(
        rt,
        CacheOwner::new(alloc, config).err(),
        Some(Refusal::BadConfig(field)),
    );
}

/// The fields are tested in the order stripes, capacity, history.
#[test]
fn refuses_a_bad_config(rt: HostRuntime) {
    let alloc = rt.alloc();
    let good = config(16, true, true);
    refuses(
        &rt,
        alloc,
        &Config {
            stripes: 0,
            capacity: 0,
            ..good
        },
        Field::Stripes,
    );
    refuses(
        &rt,
        alloc,
        &Config {
            capacity: 0,
            history: 15,
            ..good
        },
        Field::Capacity,
    );
    refuses(
        &rt,
        alloc,
        &Config {
            history: 15,
            ..good
        },
        Field::History,
    );
}

/// A cache of this shape.
fn opened(rt: &impl Abort, alloc: Global, config: &Config) -> CacheOwner {
    CacheOwner::new(alloc, config).ok().expect(rt, "a cache")
}

/// A session that brings these boxes is the one with this number, and has made no call.
fn is_given(
    rt: &impl Abort,
    alloc: Global,
    owner: &mut CacheOwner,
    loader: Option<Loader>,
    writer: Option<Writer>,
    number: u32,
) {
    let given = owner.session(alloc, loader, writer).ok();
    let caller = given.expect(rt, "a session").caller();
    is(
        rt,
        caller,
        Caller {
            session: number,
            call: 0,
        },
    );
}

/// A session that brings these boxes, or none, is refused, and gets them back.
fn is_refused(
    rt: &impl Abort,
    alloc: Global,
    owner: &mut CacheOwner,
    loader: Option<Loader>,
    writer: Option<Writer>,
    why: Refusal,
) {
    let brought = (loader.is_some(), writer.is_some());
    let session = owner.session(alloc, loader, writer);
    let fault = session.err().expect(rt, "a refusal");
    is(rt, fault.refusal, why);
    let came_back = (fault.loader.is_some(), fault.writer.is_some());
    is(rt, came_back, brought);
}

#[test]
fn wants_a_loader_and_a_writer(rt: HostRuntime) {
    let alloc = rt.alloc();
    let desk = Desk::of(&rt, alloc, "a=1");
    let mut owner = opened(&rt, alloc, &config(100, true, true));
    is_refused(&rt, alloc, &mut owner, None, None, Refusal::NoLoader);
    let writer = Some(boxed!(rt, Writer, desk.writer(rt)));
    is_refused(&rt, alloc, &mut owner, None, writer, Refusal::NoLoader);
    let loader = Some(boxed!(rt, Loader, desk.loader(rt)));
    is_refused(&rt, alloc, &mut owner, loader, None, Refusal::NoWriter);
    let mut owner = opened(&rt, alloc, &config(100, false, true));
    is_refused(&rt, alloc, &mut owner, None, None, Refusal::NoWriter);
}

/// The session after the last gets both boxes back, also if it lacks one.
#[test]
fn gives_out_so_many_sessions(rt: HostRuntime) {
    let alloc = rt.alloc();
    let desk = Desk::of(&rt, alloc, "a=1");
    let mut owner = opened(&rt, alloc, &config(100, true, true));
    for session in 0..SESSIONS_MAX {
        let loader = Some(boxed!(rt, Loader, desk.loader(rt)));
        let writer = Some(boxed!(rt, Writer, desk.writer(rt)));
        is_given(&rt, alloc, &mut owner, loader, writer, session);
    }
    let loader = Some(boxed!(rt, Loader, desk.loader(rt)));
    let writer = Some(boxed!(rt, Writer, desk.writer(rt)));
    let why = Refusal::TooManySessions;
    is_refused(&rt, alloc, &mut owner, loader, writer, why);
    is_refused(&rt, alloc, &mut owner, None, None, why);
}

/// A history of 16 events: a put needs three free places, a hit one. A refused call asks nobody and changes nothing.
pub const FULL: &str = "\
open 1 4 16 read write
get a = 1 | 1 0 0
put b 2 = ok | 1 1 0
put b 2 = ok | 1 2 0
put b 2 = ok | 1 3 0
put b 2 = ok | 1 4 0
put b 2 = ok | 1 5 0
put b 2 = ok | 1 6 0
put b 2 = ok | 1 7 0
put b 2 = ok | 1 8 0
put b 2 = ok | 1 9 0
put b 2 = ok | 1 10 0
put b 2 = ok | 1 11 0
put b 2 = ok | 1 12 0
put b 2 = ok | 1 13 0
put b 3 = HistoryFull | 1 13 0
get c = HistoryFull | 1 13 0
get b = 2 | 1 13 0
contains c = false | 1 13 0
contains c = HistoryFull | 1 13 0
get a = HistoryFull | 1 13 0
own 16
stored a=1 b=2
";

/// A session whose next call has the last number that a call has, 2^64 - 2. After it each call is refused; another session's calls
/// go on.
pub const LAST_NUMBER: &str = "\
open 1 4 100
skip 18446744073709551614
put a 1 = ok
put a 2 = HistoryFull
get a = HistoryFull
own 1
s2 get a = 1
s2 put a 3 = ok
";
