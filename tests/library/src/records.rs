//! Records of calls: verdicts by each rule, faults of lines, and streams that end.
use crate::common::is_at as is;
use jc_record::run::run;
use jc_record::{Asked, CheckFault, RecordEnd};
use jc_text::Noted;
use std::alloc::Global;
use std::process::Abort;

/// Cache and store as one, in real time, with evictions.
const STORE: Asked = Asked {
    is_store_known: true,
    may_vanish: true,
    is_real: true,
    states: 1000,
    is_ordered: false,
};

/// A loader may answer anything.
const TABLE: Asked = Asked {
    is_store_known: false,
    ..STORE
};

/// Only the order of each thread counts.
const PROGRAM: Asked = Asked {
    is_real: false,
    ..STORE
};

/// Nothing vanishes.
const NEVER: Asked = Asked {
    may_vanish: false,
    ..STORE
};

/// A load whose value comes into the cache after a put of another thread.
const STALE: &str =
    "history 1; open read write; set a 0; t1 call 1 get a; t1 load 1 a; t1 loads 1 a=0; t2 call 2 put a 1; \
t2 write 2 a=1; t2 writes 2; t2 is 2 ok; t1 is 1 0; t1 call 3 get a; t1 is 3 0";

/// A key is loaded twice.
const TWO_LOADS: &str =
    "history 1; open read; set a 0; t1 call 1 get a; t1 load 1 a; t1 loads 1 a=0; t1 is 1 0; t1 call 2 get a; \
t1 load 2 a; t1 loads 2 a=0; t1 is 2 0";

/// The lines of a text that separates them by `; `, each with a line feed.
fn lines(rt: &impl Abort, alloc: Global, text: &str) -> Vec<u8> {
    let mut all = Vec::new(alloc);
    for line in text.split("; ") {
        all.extend_from_slice(line.as_bytes()).expect(rt, "memory");
        all.push(b'\n').expect(rt, "memory");
    }
    all
}

/// The end of a check, and what is written.
fn checked(
    rt: &impl Abort,
    alloc: Global,
    asked: &Asked,
    text: &str,
) -> (Result<RecordEnd, CheckFault>, Vec<u8>) {
    let record = lines(rt, alloc, text);
    let mut found = Vec::new(alloc);
    let end = run(
        alloc,
        &mut Noted::new(record.as_slice()),
        &mut Noted::new(&mut found),
        asked,
    );
    (end, found)
}

/// Asserts the end of a check, and how what is written begins.
fn ends(rt: &impl Abort, alloc: Global, asked: &Asked, text: &str, end: RecordEnd, begin: &str) {
    let (ended, found) = checked(rt, alloc, asked, text);
    is(rt, text, ended, Ok(end));
    assert!(rt; found.starts_with(begin.as_bytes()), "at {text}");
}

#[test]
fn judges_by_each_rule(rt: HostRuntime) {
    let alloc = rt.alloc();
    let explained = (RecordEnd::Explained, "a: explained");
    let refuted = (RecordEnd::NotExplained, "a: not explained");
    for (asked, text, wanted) in [
        (STORE, STALE, refuted),
        (TABLE, STALE, explained),
        (PROGRAM, STALE, explained),
        (NEVER, STALE, refuted),
        (STORE, TWO_LOADS, explained),
        (NEVER, TWO_LOADS, refuted),
        (
            NEVER,
            "history 1; open; set a 0; t1 call 1 get a; t1 is 1 -",
            explained,
        ),
    ] {
        ends(&rt, alloc, &asked, text, wanted.0, wanted.1);
    }
}

#[test]
fn tells_the_order_if_it_is_asked_for(rt: HostRuntime) {
    let ordered = Asked {
        is_ordered: true,
        ..STORE
    };
    for (asked, begin) in [
        (STORE, "a: explained, 2 calls\nkeys explained: 1, "),
        (ordered, "a: explained, 2 calls\n  "),
    ] {
        ends(
            &rt,
            rt.alloc(),
            &asked,
            TWO_LOADS,
            RecordEnd::Explained,
            begin,
        );
    }
}

#[test]
fn gives_up_after_its_states(rt: HostRuntime) {
    let few = Asked { states: 1, ..STORE };
    ends(
        &rt,
        rt.alloc(),
        &few,
        STALE,
        RecordEnd::GaveUp,
        "a: gave up after 1 states, 3 calls\n",
    );
}

#[test]
fn knows_who_was_asked_twice_or_not_waited_for(rt: HostRuntime) {
    let begin = "a: not explained, a call asked twice or answered too soon, 1 calls\n";
    for text in [
        "history 1; open read; t1 call 1 get a; t1 load 1 a; t1 loads 1; t1 load 1 a; t1 loads 1; t1 is 1 -",
        "history 1; open read; t1 call 1 get a; t1 load 1 a; t1 is 1 -",
    ] {
        ends(
            &rt,
            rt.alloc(),
            &STORE,
            text,
            RecordEnd::NotExplained,
            begin,
        );
    }
}

#[test]
fn splits_calls_of_many_keys(rt: HostRuntime) {
    let text =
        "history 1; open read write; set a 1; t1 call 1 getall a b; t1 load 1 a b; t1 loads 1 a=1; t1 is 1 all a=1; \
t1 call 2 putall a=2 b=3; t1 write 2 a=2 b=3; t1 writefails 2 7 but b; t1 is 2 WriterFailed 7; t1 call 3 removeevery; t1 delete 3 a; \
t1 deletes 3; t1 is 3 ok; t1 call 4 clear; t1 is 4 ok";
    let begin = "a: explained, 4 calls\nb: explained, 4 calls\nkeys explained: 2, ";
    ends(&rt, rt.alloc(), &STORE, text, RecordEnd::Explained, begin);
}

#[test]
fn tells_the_first_line_with_a_fault(rt: HostRuntime) {
    for (text, wanted) in [
        ("history 2", "line 1: bad line\n"),
        ("history 1; t1 call 1 get a", "line 2: not open\n"),
        ("history 1; open; open", "line 3: open twice\n"),
        ("history 1; open; # a comment; set a", "line 4: bad line\n"),
        ("history 1; open; s1 call 1 get a", "line 3: bad caller\n"),
        (
            "history 1; open; t1024 call 1 get a",
            "line 3: bad caller\n",
        ),
        (
            "history 1; open; @1x t1 call 1 get a",
            "line 3: bad number\n",
        ),
        ("history 1; open; t1 call 1 got a", "line 3: bad line\n"),
        ("history 1; open; t1 call 1 get a!", "line 3: bad key\n"),
        (
            "history 1; open; t1 call 1 get a; t2 call 1 get b",
            "line 4: not now\n",
        ),
        ("history 1; open; t1 is 1 ok", "line 3: no such call\n"),
        (
            "history 1; open; t1 call 1 put a 1; t1 is 1 true",
            "line 4: bad line\n",
        ),
        (
            "history 1; open; @5 t1 call 1 get a; @4 t1 is 1 -",
            "line 4: number not rising\n",
        ),
        (
            "history 1; open; t1 call 1 invoke a; t1 process 1 a get=-",
            "line 4: bad line\n",
        ),
        ("history 1", "line 2: not open\n"),
    ] {
        ends(&rt, rt.alloc(), &STORE, text, RecordEnd::LineFault, wanted);
    }
}
