//! What the core refuses of a desk: each is a code, with nothing done.
use cadwrelch::core::{
    Asked, Code, Desk, Effect, Join, Loaded, Op, PickedUp, Processed, Reply, Shape, Statistics,
    Ticket, Written,
};

const SHAPE: Shape = Shape {
    stripes: 1,
    capacity: 2,
    history: 16,
    read_through: true,
    write_through: true,
    keeps_events: false,
};

fn desk() -> Desk {
    Desk::open(&SHAPE, 0, &[]).unwrap()
}

fn ticket(asked: Asked<'_>) -> Ticket {
    match asked {
        Asked::Load(ticket) | Asked::Write(ticket, _) | Asked::Delete(ticket) => ticket,
        Asked::Process { ticket, .. } => ticket,
        other => panic!("{other:?}"),
    }
}

#[test]
fn shapes_out_of_their_limits() {
    for shape in [
        Shape {
            stripes: 0,
            ..SHAPE
        },
        Shape {
            stripes: 65,
            ..SHAPE
        },
        Shape {
            capacity: 0,
            ..SHAPE
        },
        Shape {
            capacity: 4097,
            ..SHAPE
        },
        Shape {
            history: 15,
            ..SHAPE
        },
        Shape {
            history: 65537,
            ..SHAPE
        },
    ] {
        assert_eq!(Desk::open(&shape, 0, &[]).err(), Some(Code::BadArgument));
    }
    assert_eq!(Desk::open(&SHAPE, 1, &[]).err(), Some(Code::BadArgument));
}

#[test]
fn contents_that_do_not_fit() {
    let open = |entries: &[(&[u8], &[u8])]| Desk::open(&SHAPE, 0, entries).err();
    let long = [b'v'; 257];
    assert_eq!(open(&[(b"a", b"1"), (b"b", b"2")]), None);
    assert_eq!(open(&[(b"a", b"1"), (b"a", b"2")]), Some(Code::BadArgument));
    assert_eq!(open(&[(b"", b"1")]), Some(Code::BadArgument));
    assert_eq!(open(&[(b"a", &long)]), Some(Code::BadArgument));
    assert_eq!(
        open(&[(b"a", b""), (b"b", b""), (b"c", b"")]),
        Some(Code::BadArgument)
    );
    let two = Shape {
        stripes: 2,
        ..SHAPE
    };
    assert_eq!(
        Desk::open(&two, 0, &[(b"a", b"")]).err(),
        Some(Code::BadArgument)
    );
}

#[test]
fn keys_and_values_of_no_length_or_too_long() {
    let mut desk = desk();
    let (key, value) = ([b'k'; 33], [b'v'; 257]);
    assert_eq!(desk.begin(1, Op::Get, b"").err(), Some(Code::BadArgument));
    assert_eq!(desk.begin(1, Op::Get, &key).err(), Some(Code::BadArgument));
    assert_eq!(
        desk.begin(1, Op::Put(&value), b"a").err(),
        Some(Code::BadArgument)
    );
    assert_eq!(desk.hit(1, b"").err(), Some(Code::BadArgument));
    assert_eq!(desk.peek(&key).err(), Some(Code::BadArgument));
    let asked = ticket(desk.begin(1, Op::Get, b"a").unwrap());
    let long = desk.commit_load(asked, Loaded::Found(&value));
    assert_eq!(long.err(), Some(Code::BadArgument));
    assert!(
        desk.commit_load(asked, Loaded::Found(&value[..256]))
            .is_ok()
    );
    let longest = ticket(desk.begin(1, Op::Get, &key[..32]).unwrap());
    desk.withdraw(longest).unwrap();
}

#[test]
fn tickets_that_are_not_out_or_ask_another() {
    let mut desk = desk();
    let asked = ticket(desk.begin(1, Op::Get, b"a").unwrap());
    let other = Ticket(asked.0 + 1);
    assert_eq!(
        desk.commit_load(other, Loaded::Nothing).err(),
        Some(Code::Misuse)
    );
    assert_eq!(
        desk.commit_write(asked, Written::Done).err(),
        Some(Code::Misuse)
    );
    assert_eq!(desk.withdraw(other).err(), Some(Code::Misuse));
    assert!(desk.commit_load(asked, Loaded::Nothing).is_ok());
    assert_eq!(
        desk.commit_load(asked, Loaded::Nothing).err(),
        Some(Code::Misuse)
    );
    assert_eq!(desk.withdraw(asked).err(), Some(Code::Misuse));
}

#[test]
fn sessions_that_have_a_call_out() {
    let mut desk = desk();
    let asked = ticket(desk.begin(1, Op::Get, b"a").unwrap());
    assert_eq!(desk.begin(1, Op::Get, b"b").err(), Some(Code::Misuse));
    let other = ticket(desk.begin(2, Op::Put(b"1"), b"b").unwrap());
    desk.withdraw(asked).unwrap();
    let again = ticket(desk.begin(1, Op::Get, b"a").unwrap());
    desk.withdraw(other).unwrap();
    desk.withdraw(again).unwrap();
    assert_eq!(desk.close(), Ok(()));
}

#[test]
fn keys_of_another_stripe() {
    let two = Shape {
        stripes: 2,
        ..SHAPE
    };
    let mut desk = Desk::open(&two, 1, &[]).unwrap();
    assert!(desk.begin(1, Op::ContainsKey, b"a").is_ok());
    assert_eq!(
        desk.begin(1, Op::ContainsKey, b"b").err(),
        Some(Code::Misuse)
    );
}

#[test]
fn joins_of_another_session_call_key_or_load() {
    let mut desk = desk();
    let asked = ticket(desk.begin(1, Op::Get, b"a").unwrap());
    let Asked::Joined(join) = desk.begin(2, Op::Get, b"a").unwrap() else {
        panic!("a load is joined");
    };
    for wrong in [
        Join { session: 3, ..join },
        Join {
            call: join.call + 1,
            ..join
        },
        Join {
            load: join.load + 1,
            ..join
        },
    ] {
        assert_eq!(desk.pick_up(wrong, b"a").err(), Some(Code::Misuse));
    }
    assert_eq!(desk.pick_up(join, b"b").err(), Some(Code::Misuse));
    assert!(matches!(desk.pick_up(join, b"a"), Ok(PickedUp::NotYet)));
    assert_eq!(desk.close(), Err(Code::InUse));
    assert_eq!(
        desk.commit_load(asked, Loaded::Found(b"1")).unwrap().shared,
        1
    );
    assert_eq!(desk.end_generation(), Err(Code::InUse));
    assert_eq!(desk.close(), Err(Code::InUse));
    let picked = desk.pick_up(join, b"a").unwrap();
    assert!(matches!(
        picked,
        PickedUp::Done(Reply::Value(Some(b"1")), 1)
    ));
    assert_eq!(desk.pick_up(join, b"a").err(), Some(Code::Misuse));
    assert_eq!(desk.close(), Ok(()));
}

#[test]
fn processors_whose_answers_do_not_fit() {
    let mut desk = desk();
    let asked = ticket(desk.begin(1, Op::Invoke, b"a").unwrap());
    let keep = Processed {
        load: None,
        effect: Effect::Keep,
        write: None,
        outcome: None,
    };
    let set = Effect::Set(b"1");
    for wrong in [
        Processed {
            write: Some(Written::Done),
            ..keep
        },
        Processed {
            effect: set,
            ..keep
        },
        Processed {
            load: Some(Loaded::Failed(1)),
            effect: set,
            write: Some(Written::Done),
            ..keep
        },
    ] {
        assert_eq!(desk.commit_process(asked, &wrong).err(), Some(Code::Misuse));
    }
    let right = Processed {
        effect: set,
        write: Some(Written::Done),
        ..keep
    };
    assert!(desk.commit_process(asked, &right).unwrap().moves.is_kept);
    let asked = ticket(desk.begin(1, Op::Invoke, b"a").unwrap());
    let loads = Processed {
        load: Some(Loaded::Nothing),
        ..keep
    };
    assert_eq!(desk.commit_process(asked, &loads).err(), Some(Code::Misuse));
    assert!(desk.commit_process(asked, &keep).is_ok());
}

#[test]
fn a_closed_desk() {
    let mut desk = desk();
    assert_eq!(desk.reopen(&SHAPE, 0, &[]), Err(Code::WrongHandle));
    desk.close().unwrap();
    let closed = Some(Code::WrongHandle);
    assert_eq!(desk.close().err(), closed);
    assert_eq!(desk.begin(1, Op::Get, b"a").err(), closed);
    assert_eq!(desk.hit(1, b"a").err(), closed);
    assert_eq!(desk.commit_load(Ticket(0), Loaded::Nothing).err(), closed);
    assert_eq!(desk.commit_write(Ticket(0), Written::Done).err(), closed);
    assert_eq!(desk.withdraw(Ticket(0)).err(), closed);
    assert_eq!(desk.peek(b"a").err(), closed);
    assert_eq!(desk.statistics().err(), closed);
    assert_eq!(desk.entries().err(), closed);
    assert_eq!(desk.end_generation().err(), closed);
    assert_eq!(desk.events_len(), 0);
    desk.reopen(&SHAPE, 0, &[(b"a", b"1")]).unwrap();
    assert_eq!(desk.peek(b"a").unwrap(), Some(&b"1"[..]));
}

#[test]
fn a_desk_that_keeps_events_waits_when_it_is_full() {
    let mut desk = Desk::open(
        &Shape {
            keeps_events: true,
            ..SHAPE
        },
        0,
        &[(b"a", b"1")],
    )
    .unwrap();
    let mut hits = 0;
    while desk.hit(1, b"a").unwrap().is_some() {
        hits += 1;
    }
    assert!(matches!(desk.begin(1, Op::Get, b"a"), Ok(Asked::Full)));
    assert_eq!(desk.events_len(), hits);
    desk.end_generation().unwrap();
    assert_eq!(desk.end_generation(), Err(Code::InUse));
    assert_eq!(desk.hit(1, b"a").unwrap(), Some(&b"1"[..]));
    let hits = hits as u64 + 1;
    assert_eq!(
        desk.statistics(),
        Ok(Statistics {
            hits,
            ..Statistics::default()
        })
    );
}
