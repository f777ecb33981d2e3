//! Each default method and each wrapper, on the normal path, at its limits and with its errors; and each wrapper in its box, as a
//! cache calls it.

mod letters;
mod listens;
mod loads;
mod noting;
mod updates;
mod writes;

use crate::common::is_at as is;
use jc_model::LoadAnswer;
use jc_types::{Key, Value};
use std::process::Abort;

fn key(rt: &impl Abort, byte: u8) -> Key {
    Key::new(&[byte]).ok().expect(rt, "a key")
}

fn value(rt: &impl Abort, byte: u8) -> Value {
    Value::new(&[byte]).ok().expect(rt, "a value")
}

/// The answer of a loader, from a byte: `.` if it wasn't asked, `-` if nothing is there, a capital letter that is the code of its
/// failure, otherwise the value.
fn load_answer(rt: &impl Abort, byte: u8) -> LoadAnswer {
    match byte {
        b'.' => LoadAnswer::NotAsked,
        b'-' => LoadAnswer::Nothing,
        _ if byte.is_ascii_uppercase() => LoadAnswer::Failed(u32::from(byte)),
        _ => LoadAnswer::Found(value(rt, byte)),
    }
}
