//! Keys and values of one byte.
use jc_types::{Key, Value};
use std::process::Abort;

pub fn key(rt: &impl Abort, byte: u8) -> Key {
    Key::new(&[byte]).expect(rt, "a key")
}

pub fn value(rt: &impl Abort, byte: u8) -> Value {
    Value::new(&[byte]).expect(rt, "a value")
}
