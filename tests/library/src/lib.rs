//! Tests of the library that are run, and not proved, a module for each part of it.
//!
//! The ghost members that a trait wants are left open, `{ ? }`.

/// An object in a box. Only a test itself can make it.
macro_rules! boxed {
    ($rt:expr, $kind:ty, $inner:expr) => {{
        let inner: $kind = Box::new($rt.alloc(), $inner).ok().expect(&$rt, "memory");
        inner
    }};
}

mod bulk;
mod calls;
mod common;
mod database;
mod doubles;
mod explorations;
mod faults;
mod plain;
mod records;
mod scripts;
mod units;
mod worlds;
