//! Values.
use super::{is, value};
use jc_types::{Value, ValueFault};
use std::cmp::Ordering;

// Texts of 256 bytes that differ in the last one.
const LONG: &str =
    "0123456789abcdef0123456789abcdef0123456789abcdef0123456789abcdef0123456789abcdef0123456789abcdef0123456789abcdef0123456789abcdef0123456789abcdef0123456789abcdef0123456789abcdef0123456789abcdef0123456789abcdef0123456789abcdef0123456789abcdef0123456789abcde1";

const OTHER: &str =
    "0123456789abcdef0123456789abcdef0123456789abcdef0123456789abcdef0123456789abcdef0123456789abcdef0123456789abcdef0123456789abcdef0123456789abcdef0123456789abcdef0123456789abcdef0123456789abcdef0123456789abcdef0123456789abcdef0123456789abcdef0123456789abcde0";

// Texts of 0, 1, 256 and 257 bytes, and why they make no value.
const TEXTS: [(&str, Option<ValueFault>); 4] = [
    ("", None),
    ("v", None),
    (LONG, None),
    (
        "0123456789abcdef0123456789abcdef0123456789abcdef0123456789abcdef0123456789abcdef0123456789abcdef0123456789abcdef0123456789abcdef0123456789abcdef0123456789abcdef0123456789abcdef0123456789abcdef0123456789abcdef0123456789abcdef0123456789abcdef0123456789abcdefv",
        Some(ValueFault::TooLong),
    ),
];

#[test]
fn takes_0_to_256_bytes(rt: HostRuntime) {
    for (text, fault) in TEXTS {
        match Value::new(text.as_bytes()) {
            Ok(made) => {
                is(&rt, text, fault, None);
                is(&rt, text, made.bytes(), text.as_bytes());
            }
            Err(found) => is(&rt, text, fault, Some(found)),
        }
    }
}

const PAIRS: &[(&str, &str, Ordering)] = &[
    ("", "", Ordering::Equal),
    ("", "\0", Ordering::Less),
    ("a", "a\0", Ordering::Less),
    ("b", "ab", Ordering::Greater),
    (LONG, LONG, Ordering::Equal),
    (LONG, OTHER, Ordering::Greater),
];

#[test]
fn compares_all_bytes(rt: HostRuntime) {
    for (left, right, want) in PAIRS {
        let (a, b) = (value(&rt, left.as_bytes()), value(&rt, right.as_bytes()));
        is(&rt, left, a.partial_cmp(&b), Some(*want));
        is(&rt, left, a == b, *want == Ordering::Equal);
    }
}

// A value, and one that takes its place.
const COPIES: [(&str, &str); 6] = [
    ("", ""),
    ("short", LONG),
    (LONG, "short"),
    (LONG, ""),
    (LONG, OTHER),
    ("same", "size"),
];

#[test]
fn begins_empty(rt: HostRuntime) {
    is(
        &rt,
        "the first value of a room",
        Value::default(),
        value(&rt, b""),
    );
}

#[test]
fn copies_in_place(rt: HostRuntime) {
    for (old, new) in COPIES {
        let (mut place, other) = (value(&rt, old.as_bytes()), value(&rt, new.as_bytes()));
        place.copy_from(&other);
        is(&rt, new, place, other);
        is(&rt, new, place.bytes(), new.as_bytes());
    }
}

#[test]
fn says_why(rt: HostRuntime) {
    let text = format!(in rt.alloc(); "{}", ValueFault::TooLong).expect(&rt, "memory");
    let want = "a value has at most 256 bytes";
    is(&rt, want, text.as_str(), want);
}
