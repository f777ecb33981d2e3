//! Operations at one key, and their replies.
use crate::core;
use crate::lives::Question;
use std::sync::Arc;

/// A value that a conditional operation compares with the cached one, with no lock held.
pub struct Expected<V> {
    value: Arc<V>,
    is_equal: fn(&V, &V) -> bool,
}

impl<V> Expected<V> {
    /// Whether a cached value is equal to it.
    pub(crate) fn is_equal(&self, cached: &V) -> bool {
        (self.is_equal)(cached, &self.value)
    }
}

impl<V: PartialEq> Expected<V> {
    /// Equal to this value.
    pub fn equal_to(value: impl Into<Arc<V>>) -> Expected<V> {
        Expected {
            value: value.into(),
            is_equal: V::eq,
        }
    }
}

/// An operation at one key.
pub enum Op<V> {
    /// The cached value, or what the loader finds.
    Get,
    /// Whether the key is cached.
    ContainsKey,
    /// Writes and caches a value.
    Put(Arc<V>),
    /// The same; the value that was cached is answered.
    GetAndPut(Arc<V>),
    /// Writes and caches a value if none is cached.
    PutIfAbsent(Arc<V>),
    /// Deletes the key from store and cache.
    Remove,
    /// The same, if this value is cached.
    RemoveIf(Expected<V>),
    /// Deletes the key; the value that was cached is answered.
    GetAndRemove,
    /// Writes and caches a value if one is cached.
    Replace(Arc<V>),
    /// The same, if `old` is cached.
    ReplaceIf {
        /// The value that is to be cached.
        old: Expected<V>,
        /// The value that comes.
        new: Arc<V>,
    },
    /// Writes and caches a value if one is cached, which is answered.
    GetAndReplace(Arc<V>),
    /// Uncaches the key: no writer is asked.
    Clear,
    /// Loads the key if it isn't cached.
    Load,
    /// Loads the key in any case.
    Reload,
    /// Runs a processor on the key's entry.
    Invoke,
}

impl<V> Op<V> {
    pub(crate) fn brought(&self) -> Option<&Arc<V>> {
        match self {
            Op::Put(value)
            | Op::GetAndPut(value)
            | Op::PutIfAbsent(value)
            | Op::Replace(value)
            | Op::ReplaceIf { new: value, .. }
            | Op::GetAndReplace(value) => Some(value),
            _ => None,
        }
    }

    pub(crate) fn expected(&self) -> Option<&Expected<V>> {
        match self {
            Op::RemoveIf(old) | Op::ReplaceIf { old, .. } => Some(old),
            _ => None,
        }
    }

    /// What a first phase does for the life of its key's entry if it asks nobody. If it asks somebody, its last phase says that.
    pub(crate) fn question(
        &self,
        has_entry: bool,
        is_equal: bool,
        is_written: bool,
    ) -> Option<Question> {
        let comes = match (is_written, has_entry) {
            (true, _) => None,
            (false, true) => Some(Question::Update),
            (false, false) => Some(Question::Create),
        };
        match self {
            Op::Get if has_entry => Some(Question::Read),
            Op::Put(_) | Op::GetAndPut(_) => comes,
            Op::PutIfAbsent(_) if !has_entry => comes,
            Op::Replace(_) | Op::GetAndReplace(_) if has_entry => comes,
            Op::ReplaceIf { .. } if has_entry && is_equal => comes,
            Op::ReplaceIf { .. } | Op::RemoveIf(_) if has_entry && !is_equal => {
                Some(Question::Read)
            }
            _ => None,
        }
    }

    /// The same operation of the core, at numbers.
    pub(crate) fn numbered<'a>(&self, brought: &'a [u8], old: &'a [u8]) -> core::Op<'a> {
        match self {
            Op::Get => core::Op::Get,
            Op::ContainsKey => core::Op::ContainsKey,
            Op::Put(_) => core::Op::Put(brought),
            Op::GetAndPut(_) => core::Op::GetAndPut(brought),
            Op::PutIfAbsent(_) => core::Op::PutIfAbsent(brought),
            Op::Remove => core::Op::Remove,
            Op::RemoveIf(_) => core::Op::RemoveIf(old),
            Op::GetAndRemove => core::Op::GetAndRemove,
            Op::Replace(_) => core::Op::Replace(brought),
            Op::ReplaceIf { .. } => core::Op::ReplaceIf { old, new: brought },
            Op::GetAndReplace(_) => core::Op::GetAndReplace(brought),
            Op::Clear => core::Op::Clear,
            Op::Load => core::Op::Load,
            Op::Reload => core::Op::Reload,
            Op::Invoke => core::Op::Invoke,
        }
    }
}

/// What a call is answered.
#[derive(Debug)]
pub enum Reply<V> {
    /// It was done.
    Unit,
    /// Yes or no.
    Flag(bool),
    /// A value, or none.
    Value(Option<Arc<V>>),
}
