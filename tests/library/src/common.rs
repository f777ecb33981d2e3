//! What tests of several modules use: assertions, boxes, words, a listener.

pub mod listening;
pub mod words;

use jc_cache::{CacheLoader, CacheWriter, EntryProcessor, Session};
use jc_store::Increment;
use std::alloc::Global;
use std::fmt::Debug;
use std::process::Abort;

/// What a session brings, and the processor that its calls run.
pub type Loader = Box<dyn CacheLoader + Send + Drop>;

pub type Writer = Box<dyn CacheWriter + Send + Drop>;

pub type Processor = Box<dyn EntryProcessor + Send + Drop>;

/// Asserts a value.
pub fn is<T: Copy + Debug + PartialEq>(rt: &impl Abort, found: T, want: T) {
    assert_eq!(rt; found, want);
}

/// Asserts a value, and says where, if it is another one.
pub fn is_at<T: Copy + Debug + PartialEq>(rt: &impl Abort, at: &str, found: T, want: T) {
    assert_eq!(rt; found, want, "{at}");
}

/// A processor that counts.
pub fn increment(rt: &impl Abort, alloc: Global) -> Processor {
    Box::new(alloc, Increment).ok().expect(rt, "memory")
}

pub fn push(rt: &impl Abort, sessions: &mut Vec<Session>, session: Session) {
    match sessions.push(session) {
        Ok(()) => {}
        Err(_failed) => panic!(rt; "memory"),
    }
}
