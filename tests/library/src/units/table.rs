//! Cases that the texts don't have: an operation that replaces another, and the rows of an entry processor.
use super::value;
use jc_model::{Effect, LentChange, LoaderAsk, Op, ProcessAnswer};
use std::process::Abort;

// Replaces each of these by each.
fn take_places(rt: &impl Abort, ops: &[Op]) {
    for old in ops {
        for new in ops {
            let mut place = *old;
            place.copy_from(new);
            assert!(rt; place == *new);
        }
    }
}

#[test]
fn takes_the_place_of_another(rt: HostRuntime) {
    let (one, two) = (value(&rt, b"1"), value(&rt, b"22"));
    take_places(
        &rt,
        &[
            Op::Get,
            Op::Put(one),
            Op::Put(two),
            Op::Remove,
            Op::Invoke,
            Op::ReplaceIf { old: one, new: two },
        ],
    );
}

#[test]
fn asks_for_an_entry_processor(rt: HostRuntime) {
    let value = value(&rt, b"1");
    let set = ProcessAnswer::Ended {
        effect: Effect::Set(value),
        outcome: None,
    };
    assert!(rt; Op::Invoke.is_invoke() && set.is_given());
    assert!(rt; Op::Invoke.loader_ask(true, &None) == LoaderAsk::IfWanted);
    let asked = Op::Invoke.write_ask(&None, &set);
    assert!(rt; matches!(asked, Some(LentChange::Write(written)) if *written == value));
}
