//! What a desk of the core forgets: keys that others have written in the store.
use cadwrelch::core::{
    Asked, Cause, Code, Desk, Loaded, Op, PickedUp, Refusal, Reply, Shape, Swept, Ticket, What,
    Written,
};

const SHAPE: Shape = Shape {
    stripes: 1,
    capacity: 3,
    history: 16,
    read_through: true,
    write_through: true,
    keeps_events: false,
};

fn desk(entries: &[(&[u8], &[u8])]) -> Desk {
    Desk::open(&SHAPE, 0, entries).unwrap()
}

fn asks_loader(asked: Asked<'_>) -> Ticket {
    match asked {
        Asked::Load(ticket) => ticket,
        other => panic!("{other:?}"),
    }
}

fn asks_writer(asked: Asked<'_>) -> Ticket {
    match asked {
        Asked::Write(ticket, _) => ticket,
        other => panic!("{other:?}"),
    }
}

#[test]
fn an_entry_leaves_at_once_and_its_value_is_told() {
    let mut desk = desk(&[(b"a", b"1"), (b"b", b"2")]);
    let gone = desk.invalidate(b"a").unwrap();
    assert!(!gone.is_shut);
    assert_eq!(gone.moves.left, Some(&b"1"[..]));
    assert_eq!(gone.moves.own, Some(Cause::Invalidated));
    assert_eq!(gone.moves.victim, None);
    let nothing = desk.invalidate(b"a").unwrap();
    assert_eq!((nothing.moves.left, nothing.moves.own), (None, None));
    assert_eq!(desk.entries().unwrap(), [(b"b".to_vec(), b"2".to_vec())]);
    assert_eq!(desk.statistics().unwrap(), Default::default());
    let event = desk.event(0).unwrap().unwrap();
    assert_eq!(event.key(), b"a");
    assert!(matches!(event.what(), What::Eviction(Cause::Invalidated)));
}

#[test]
fn a_load_that_was_overtaken_leaves_nothing() {
    let mut desk = desk(&[]);
    let ticket = asks_loader(desk.begin(1, Op::Get, b"a").unwrap());
    let Asked::Joined(join) = desk.begin(2, Op::Get, b"a").unwrap() else {
        panic!("it joins")
    };
    assert_eq!(desk.invalidate(b"a").unwrap().moves.left, None);
    for op in [Op::Get, Op::ContainsKey, Op::Put(b"3"), Op::Clear] {
        let asked = desk.begin(3, op, b"a").unwrap();
        assert!(matches!(asked, Asked::Refused(Refusal::Busy)), "{asked:?}");
    }
    let done = desk.commit_load(ticket, Loaded::Found(b"2")).unwrap();
    assert_eq!(done.reply, Reply::Value(Some(b"2")));
    assert!(!done.moves.is_kept);
    assert_eq!(done.moves.own, Some(Cause::Invalidated));
    let picked = desk.pick_up(join, b"a").unwrap();
    assert!(matches!(
        picked,
        PickedUp::Done(Reply::Value(Some(b"2")), _)
    ));
    assert_eq!(desk.peek(b"a").unwrap(), None);
}

#[test]
fn a_write_that_fails_or_is_given_back_leaves_nothing() {
    for is_given_back in [false, true] {
        let mut desk = desk(&[(b"a", b"1")]);
        let ticket = asks_writer(desk.begin(1, Op::Put(b"2"), b"a").unwrap());
        desk.invalidate(b"a").unwrap();
        assert_eq!(desk.hit(2, b"a").unwrap(), None);
        let moves = if is_given_back {
            desk.withdraw(ticket).unwrap()
        } else {
            let done = desk.commit_write(ticket, Written::Failed(7)).unwrap();
            assert_eq!(done.reply, Reply::WriterFailed(7));
            done.moves
        };
        assert_eq!(moves.left, Some(&b"1"[..]));
        assert_eq!(moves.own, Some(Cause::Invalidated));
        assert_eq!(desk.peek(b"a").unwrap(), None);
    }
}

#[test]
fn all_leave_one_by_one() {
    let mut desk = desk(&[(b"a", b"1"), (b"b", b"2"), (b"c", b"3")]);
    assert!(matches!(desk.sweep().unwrap(), Swept::Open));
    let ticket = asks_writer(desk.begin(1, Op::Put(b"4"), b"b").unwrap());
    desk.invalidate_all().unwrap();
    assert!(matches!(desk.begin(2, Op::Get, b"a").unwrap(), Asked::Shut));
    for (key, value) in [(b"c", b"3"), (b"a", b"1")] {
        let Swept::Evicted(moves) = desk.sweep().unwrap() else {
            panic!("{:?} is left", key)
        };
        assert_eq!(moves.victim, Some((&key[..], &value[..])));
    }
    assert!(matches!(desk.sweep().unwrap(), Swept::Open));
    let done = desk.commit_write(ticket, Written::Done).unwrap();
    assert_eq!(done.moves.left, Some(&b"2"[..]));
    assert!(!done.moves.is_kept);
    assert_eq!(desk.entries().unwrap(), []);
}

#[test]
fn without_a_place_for_it_all_wait() {
    let mut desk = desk(&[]);
    let ticket = asks_loader(desk.begin(1, Op::Get, b"a").unwrap());
    let mut joins = Vec::new();
    for session in 2..15 {
        match desk.begin(session, Op::Get, b"a").unwrap() {
            Asked::Joined(join) => joins.push(join),
            other => panic!("{other:?}"),
        }
    }
    desk.commit_load(ticket, Loaded::Found(b"1")).unwrap();
    while desk.hit(1, b"a").unwrap().is_some() {}
    let nothing = desk.invalidate(b"a").unwrap();
    assert!(nothing.is_shut);
    assert_eq!(nothing.moves.left, None);
    assert!(matches!(desk.sweep().unwrap(), Swept::NotYet));
    for join in joins {
        assert!(matches!(
            desk.pick_up(join, b"a").unwrap(),
            PickedUp::Done(..)
        ));
    }
    assert!(matches!(desk.sweep().unwrap(), Swept::Evicted(_)));
    assert!(matches!(desk.sweep().unwrap(), Swept::Open));
    let ticket = asks_loader(desk.begin(1, Op::Get, b"a").unwrap());
    desk.withdraw(ticket).unwrap();
}

#[test]
fn what_is_no_key_here() {
    let two = Shape {
        stripes: 2,
        ..SHAPE
    };
    let mut desk = Desk::open(&two, 1, &[(b"a", b"1")]).unwrap();
    assert_eq!(desk.invalidate(b"b").err(), Some(Code::Misuse));
    assert_eq!(desk.invalidate(b"").err(), Some(Code::BadArgument));
    assert_eq!(desk.invalidate(&[b'k'; 33]).err(), Some(Code::BadArgument));
    assert_eq!(desk.peek(b"a").unwrap(), Some(&b"1"[..]));
    desk.close().unwrap();
    let closed = Some(Code::WrongHandle);
    assert_eq!(desk.invalidate(b"a").err(), closed);
    assert_eq!(desk.invalidate_all().err(), closed);
    assert_eq!(desk.sweep().err(), closed);
}
