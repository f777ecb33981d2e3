//! Keys, and the stripe that one belongs to.
use super::{is, key};
use jc_types::{KEY_MAX, Key, KeyFault, stripe_of};
use std::cmp::Ordering;

// Texts of 0, 1, 32 and 33 bytes, and why they make no key.
const TEXTS: [(&str, Option<KeyFault>); 4] = [
    ("", Some(KeyFault::Empty)),
    ("0", None),
    ("0123456789abcdef0123456789abcdef", None),
    ("0123456789abcdef0123456789abcdefg", Some(KeyFault::TooLong)),
];

#[test]
fn takes_1_to_32_bytes(rt: HostRuntime) {
    for (text, fault) in TEXTS {
        match Key::new(text.as_bytes()) {
            Ok(made) => {
                is(&rt, text, fault, None);
                is(&rt, text, made.bytes(), text.as_bytes());
            }
            Err(found) => is(&rt, text, fault, Some(found)),
        }
    }
}

// The fifth and sixth are of 32 bytes.
const PAIRS: &[(&str, &str, Ordering)] = &[
    ("a", "a", Ordering::Equal),
    ("a\0", "a\0", Ordering::Equal),
    ("a", "a\0", Ordering::Less),
    ("b", "ab", Ordering::Greater),
    (
        "0123456789abcdef0123456789abcde1",
        "0123456789abcdef0123456789abcde1",
        Ordering::Equal,
    ),
    (
        "0123456789abcdef0123456789abcde1",
        "0123456789abcdef0123456789abcde0",
        Ordering::Greater,
    ),
    // They differ first in the second and in the third word of 8 bytes, and after it the other way.
    ("0123456789abcdeg0", "0123456789abcdef1", Ordering::Greater),
    (
        "0123456789abcdefb123456z",
        "0123456789abcdefc123456y",
        Ordering::Less,
    ),
    ("0123456\u{80}", "0123456\u{7f}", Ordering::Greater),
    ("01234567", "01234567\0", Ordering::Less),
];

#[test]
fn compares_all_bytes(rt: HostRuntime) {
    for (left, right, want) in PAIRS {
        let (a, b) = (key(&rt, left.as_bytes()), key(&rt, right.as_bytes()));
        is(&rt, left, a.partial_cmp(&b), Some(*want));
        is(&rt, left, a == b, *want == Ordering::Equal);
    }
}

#[test]
fn finds_the_stripe(rt: HostRuntime) {
    let (longest, short) = (key(&rt, &[255; KEY_MAX]), key(&rt, b"ab"));
    is(&rt, "255 times 32", stripe_of(&longest, 64), 32);
    is(&rt, "97 and 98", stripe_of(&short, 4), 3);
    is(&rt, "the only one", stripe_of(&short, 1), 0);
}

const FAULTS: [(KeyFault, &str); 2] = [
    (KeyFault::Empty, "a key has at least one byte"),
    (KeyFault::TooLong, "a key has at most 32 bytes"),
];

#[test]
fn says_why(rt: HostRuntime) {
    for (fault, want) in FAULTS {
        let text = format!(in rt.alloc(); "{fault}").expect(&rt, "memory");
        is(&rt, want, text.as_str(), want);
    }
}

const PRINTED: [(&[u8], &str); 2] = [(b"a.1", "\"a.1\""), (&[255, 0], "[255, 0]")];

#[test]
fn prints_as_text(rt: HostRuntime) {
    for (bytes, want) in PRINTED {
        let text = format!(in rt.alloc(); "{:?}", key(&rt, bytes)).expect(&rt, "memory");
        is(&rt, want, text.as_str(), want);
    }
}
