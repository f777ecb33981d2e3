//! Whole calls, as lines of text: an operation, its key and its values; what it is to answer; and how often, by then, the loader
//! was called, and the writer to write and to delete.
//!
//!     get a = 1 | 1 0 0

/// One more session on a stage, whose loader and writer call those of a desk, and behave as these manners say.
macro_rules! enter {
    ($rt:expr, $stage:expr, $desk:expr, $manners:expr) => {{
        let manners: Manners = $manners;
        let loader = $desk.actor(&$rt, manners.loader, $desk.loader($rt));
        let writer = $desk.actor(&$rt, manners.writer, $desk.writer($rt));
        let (loader, writer) = (boxed!($rt, Loader, loader), boxed!($rt, Writer, writer));
        $stage.enter(&$rt, $rt.alloc(), Some(loader), Some(writer))
    }};
}

mod answers;
mod asking;
mod asking_all;
mod beside;
mod by_hand;
mod bytes;
mod calls;
mod closing;
mod desk;
mod forgetting;
mod held;
mod histories;
mod invoking;
mod limits;
mod lines;
mod living;
mod locks;
mod manners;
mod meeting;
mod mutexed;
mod outside;
mod owned;
mod phases;
mod random;
mod real_time;
mod reopening;
mod scenes;
mod scripted;
mod signals;
mod stage;
mod stores;
mod trying;

use crate::common::words::{first_word, key, value};
use crate::common::{Loader, Writer, is, is_at};
use answers::{Answer, answer_of, called};
use desk::Desk;
use jc_cache::{Cache, CacheOwner, Session};
use jc_outside::{CacheLoader, CacheWriter};
use jc_types::{Config, Key, Refusal, Value};
use manners::{Manner, Manners};
use stage::Stage;
use std::alloc::Global;
use std::process::Abort;
use std::sync::Wait;
use std::test::Fail;

/// One stripe of four entries.
fn config(history: usize, read_through: bool, write_through: bool) -> Config {
    Config {
        stripes: 1,
        capacity: 4,
        history,
        read_through,
        write_through,
    }
}
