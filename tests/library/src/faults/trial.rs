//! Which fault comes at which call of a loader or a writer.
use super::*;
use crate::common::words::{key_list, pair_list};
use crate::doubles::{LoadFault, WriteFault};

/// The code of the first session's loader, if it fails. The other sessions' have those that follow.
const LOADER_DOWN: u32 = 6;

/// The code of the loader of the session at this place below 32, if it fails.
pub fn load_code(who: usize) -> u32 {
    LOADER_DOWN.saturating_add((who % 32) as u32)
}

/// A fault of a loader or of a writer.
#[derive(Clone, Copy)]
pub enum Fault {
    /// The loader fails.
    Fails,
    /// The loader also answers for z, which isn't asked, and twice more for c: with 8, and at last with [`LAST`]. The store has 3.
    AlsoAnswers,
    /// The writer leaves these keys, adds z=9, and fails with this code, if any.
    Leaves(&'static str, Option<u32>),
}

/// The last of three answers for c.
pub const LAST: &[u8] = b"7";

/// All faults that are tried.
pub const FAULTS: [Fault; 6] = [
    Fault::Fails,
    Fault::AlsoAnswers,
    Fault::Leaves("b", Some(4)),
    Fault::Leaves("", Some(5)),
    Fault::Leaves("a b e", None),
    Fault::Leaves("a b c d e", Some(4)),
];

/// One run: a fault, at the call with this number of each session's loader or writer; how many lines of a tour are played, and by how
/// many sessions.
#[derive(Clone, Copy)]
pub struct Trial {
    pub fault: Fault,
    pub call: u64,
    pub lines: usize,
    pub sessions: usize,
}

impl Trial {
    /// Whether the fault is one of the loader.
    pub fn is_of_loader(&self) -> bool {
        match self.fault {
            Fault::Fails | Fault::AlsoAnswers => true,
            Fault::Leaves(_, _) => false,
        }
    }

    /// The call at which the loader has a fault, or 0.
    pub fn load_call(&self) -> u64 {
        if self.is_of_loader() { self.call } else { 0 }
    }

    /// The call at which the writer has a fault, or 0.
    pub fn write_call(&self) -> u64 {
        if self.is_of_loader() { 0 } else { self.call }
    }

    /// The fault of the loader of the session at this place.
    pub fn load_fault(&self, rt: &impl Abort, alloc: Global, who: usize) -> LoadFault {
        match self.fault {
            Fault::AlsoAnswers => LoadFault::AlsoAnswers(pair_list(rt, alloc, "z=9 c=8 c=7")),
            Fault::Fails | Fault::Leaves(_, _) => LoadFault::Fails(load_code(who)),
        }
    }

    pub fn write_fault(&self, rt: &impl Abort, alloc: Global) -> WriteFault {
        let (leaves, code) = match self.fault {
            Fault::Leaves(leaves, code) => (leaves, code),
            Fault::Fails | Fault::AlsoAnswers => ("", None),
        };
        WriteFault {
            leaves: key_list(rt, alloc, leaves),
            code,
            adds: pair_list(rt, alloc, "z=9"),
        }
    }
}
