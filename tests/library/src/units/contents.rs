//! A cache's contents as a map.
use super::{is, key, pairs, value};
use jc_model::Contents;
use std::alloc::Global;
use std::process::Abort;

/// Asserts that the contents are the pairs of a text.
fn lists(rt: &impl Abort, alloc: Global, contents: &Contents, want: &str) {
    let listed = contents.entries(alloc).expect(rt, "memory");
    is(
        rt,
        want,
        listed.as_slice(),
        pairs(rt, alloc, want).as_slice(),
    );
}

/// Asserts the list that the contents give when they are appended to one pair.
fn appends(rt: &impl Abort, alloc: Global, contents: &Contents, first: &str, want: &str) {
    let mut listed = pairs(rt, alloc, first);
    contents.append_to(&mut listed).expect(rt, "memory");
    is(
        rt,
        want,
        listed.as_slice(),
        pairs(rt, alloc, want).as_slice(),
    );
}

#[test]
fn keeps_byte_order(rt: HostRuntime) {
    let alloc = rt.alloc();
    let (a, b) = (key(&rt, b"a"), key(&rt, b"B"));
    let given = pairs(&rt, alloc, "ab=1 B=1 a=1 a=2");
    let mut contents = Contents::of(alloc, &given).expect(&rt, "memory");
    lists(&rt, alloc, &contents, "B=1 a=1 ab=1");
    contents.remove(&a);
    contents.set(&a, None).expect(&rt, "memory");
    contents.insert(&b, value(&rt, b"2")).expect(&rt, "memory");
    is(&rt, "a", contents.get(&a), None);
    appends(&rt, alloc, &contents, "a=2", "a=2 B=2 ab=1");
    is(&rt, "two", contents.len(), 2);
    is(&rt, "new", Contents::new(alloc).len(), 0);
}
