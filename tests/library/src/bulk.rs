//! Calls with many keys, as lines of text: what is called, its keys, and what it is to return.
//!
//!     getall a b = a=1
//!     putall a=1 b=2 = WriterFailed 4: b WriterFailed 4
//!     invokeall a b = a 2, b 1

mod closing;
mod lines;
mod outside;
mod pieces;
mod play;
mod processors;
mod random;
mod results;
mod scene;
mod side_by_side;
mod signals;
mod stage;
mod unreliable;
mod whole;
mod words;

use crate::common::{Loader, Processor, Writer, is};
use jc_cache::{Cache, CacheLoader, CacheOwner, CacheWriter, EntryProcessor, Session};
use jc_types::{Config, Key, Refusal, Value};
use std::alloc::Global;
use std::process::Abort;
use std::sync::Wait;
use std::test::Fail;
