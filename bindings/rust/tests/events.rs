//! Events that a desk hands out: each generation is a legal history.
use cadwrelch::core::{
    Asked, Cause, Code, Desk, Effect, Event, Loaded, Op, Outside, PickedUp, Processed, Reply,
    Shape, Ticket, What, Written, legal,
};

const SHAPE: Shape = Shape {
    stripes: 1,
    capacity: 3,
    history: 64,
    read_through: true,
    write_through: true,
    keeps_events: true,
};

type Entries = Vec<(Vec<u8>, Vec<u8>)>;

fn is_legal(opening: &Entries, events: &[Event]) -> bool {
    let opening: Vec<_> = opening
        .iter()
        .map(|(key, value)| (&key[..], &value[..]))
        .collect();
    legal(&SHAPE, &opening, events).unwrap()
}

fn events_of(desk: &mut Desk) -> Vec<Event> {
    let len = desk.events_len();
    assert!(desk.event(len).unwrap().is_none());
    (0..len)
        .map(|place| desk.event(place).unwrap().unwrap())
        .collect()
}

fn random(state: &mut u64) -> usize {
    *state = state
        .wrapping_mul(6364136223846793005)
        .wrapping_add(1442695040888963407);
    (*state >> 33) as usize
}

enum Out {
    Load(Ticket),
    Write(Ticket),
    Process(Ticket),
}

/// One call to its end, with a second one that joins its load. False: the generation is full, and nothing was done.
fn one_call(desk: &mut Desk, state: &mut u64) -> bool {
    let key = [b'a' + (random(state) % 6) as u8];
    let value = vec![b'v'; random(state) % 4];
    let old = vec![b'v'; random(state) % 4];
    let op = match random(state) % 8 {
        0 | 1 => Op::Get,
        2 | 3 => Op::Put(&value),
        4 => Op::Remove,
        5 => Op::ReplaceIf {
            old: &old,
            new: &value,
        },
        6 => Op::Reload,
        _ => Op::Invoke,
    };
    let fails = random(state) % 4 == 0;
    let out = match desk.begin(1, op, &key).unwrap() {
        Asked::Done(_) => return true,
        Asked::Full => return false,
        Asked::Load(ticket) => Out::Load(ticket),
        Asked::Write(ticket, _) | Asked::Delete(ticket) => Out::Write(ticket),
        Asked::Process { ticket, .. } => Out::Process(ticket),
        other => panic!("{other:?}"),
    };
    let mut joined = None;
    if let Asked::Joined(join) = desk.begin(2, Op::Get, &key).unwrap() {
        joined = Some(join);
    }
    let written = if fails {
        Written::Failed(7)
    } else {
        Written::Done
    };
    let done = match out {
        Out::Load(ticket) if fails => desk.commit_load(ticket, Loaded::Failed(5)),
        Out::Load(ticket) => desk.commit_load(ticket, Loaded::Found(&value)),
        Out::Write(ticket) => desk.commit_write(ticket, written),
        Out::Process(ticket) => {
            let processed = Processed {
                load: None,
                effect: Effect::Set(&value),
                write: Some(written),
                outcome: Some(&old),
            };
            desk.commit_process(ticket, &processed)
        }
    };
    done.unwrap();
    if let Some(join) = joined {
        assert!(matches!(
            desk.pick_up(join, &key).unwrap(),
            PickedUp::Done(..)
        ));
    }
    true
}

#[test]
fn each_generation_is_legal() {
    let mut desk = Desk::open(&SHAPE, 0, &[]).unwrap();
    let mut state = 1;
    let mut kinds = [0; 3];
    for _ in 0..10 {
        let opening = desk.entries().unwrap();
        while one_call(&mut desk, &mut state) {}
        let events = events_of(&mut desk);
        assert!(is_legal(&opening, &events));
        assert!(events.len() > 50);
        for event in &events {
            match event.what() {
                What::Eviction(_) => kinds[0] += 1,
                What::Step {
                    shared_with: Some(_),
                    ..
                } => kinds[1] += 1,
                What::Step { .. } => kinds[2] += 1,
            }
        }
        assert!(!is_legal(&opening, &events[1..]) || opening == desk.entries().unwrap());
        desk.end_generation().unwrap();
        assert_eq!(desk.events_len(), 0);
    }
    assert!(kinds.iter().all(|kind| *kind > 0), "{kinds:?}");
    desk.close().unwrap();
}

#[test]
fn events_say_what_happened() {
    let mut desk = Desk::open(
        &Shape {
            capacity: 1,
            ..SHAPE
        },
        0,
        &[(b"a", b"1")],
    )
    .unwrap();
    desk.hit(3, b"a").unwrap();
    let Asked::Write(ticket, _) = desk.begin(4, Op::Put(b"2"), b"b").unwrap() else {
        panic!("it writes")
    };
    desk.commit_write(ticket, Written::Done).unwrap();
    let events = events_of(&mut desk);
    assert_eq!(events.len(), 3);
    let What::Step {
        session: 3,
        op: Op::Get,
        reply: Reply::Value(Some(b"1")),
        shared_with: None,
        ..
    } = events[0].what()
    else {
        panic!("{:?}", events[0]);
    };
    assert_eq!(events[0].key(), b"a");
    assert!(matches!(events[1].what(), What::Eviction(Cause::Full)));
    assert_eq!(events[1].key(), b"a");
    let What::Step {
        session: 4,
        op: Op::Put(b"2"),
        reply: Reply::Unit,
        outside,
        ..
    } = events[2].what()
    else {
        panic!("{:?}", events[2]);
    };
    let Outside {
        load: None,
        write: Some(Written::Done),
        effect: None,
        outcome: None,
    } = outside
    else {
        panic!("{outside:?}");
    };
    let shape = Shape {
        capacity: 1,
        ..SHAPE
    };
    assert_eq!(legal(&shape, &[(b"a", b"1")], &events), Ok(true));
    assert_eq!(legal(&shape, &[(b"a", b"2")], &events), Ok(false));
    assert_eq!(legal(&shape, &[], &events), Ok(false));
    assert_eq!(
        legal(&shape, &[(b"", b"2")], &events).err(),
        Some(Code::BadArgument)
    );
    assert_eq!(legal(&shape, &[], &[]), Ok(true));
    desk.close().unwrap();
    assert_eq!(desk.event(0).err(), Some(Code::WrongHandle));
}
