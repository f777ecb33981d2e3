//! Calls with many keys and with one, as lines of text, before loaders and writers that fail at one of their calls, and while
//! allocations are refused. A line is a call's word and its keys, each with a value if the call takes one.
//!
//!     getall a b
//!     putall a=1 b=2

mod calls;
mod noted;
mod outside;
mod stage;
mod stubborn;
mod sweep;
mod trial;
mod words;

use crate::common::{Loader, Processor, Writer, is};
use jc_cache::{Cache, CacheLoader, CacheOwner, CacheWriter, EntryProcessor, Session};
use jc_types::{Config, Key, Refusal, Value};
use std::alloc::Global;
use std::process::Abort;
use std::sync::Wait;
