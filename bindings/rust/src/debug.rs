//! `Debug` of calls under way: their names, and nothing of keys and values, which needn't have it.
use crate::call::{AskedLoad, AskedWrite, Begun, Busy, Join, Processing, Ticket};
use crate::invoke::Entry;
use crate::op::{Expected, Op};
use crate::outside::{Loader, Writer};
use std::fmt::{Debug, Formatter, Result};

macro_rules! named {
    ($([$($generics:tt)*] $kind:ty: $name:literal;)*) => {$(
        impl<$($generics)*> Debug for $kind {
            fn fmt(&self, f: &mut Formatter<'_>) -> Result {
                f.debug_struct($name).finish_non_exhaustive()
            }
        }
    )*};
}

named! {
    [A] Ticket<A>: "Ticket";
    [K, V, L, W] AskedLoad<'_, K, V, L, W>: "AskedLoad";
    [K, V, L, W] AskedWrite<'_, K, V, L, W>: "AskedWrite";
    [K, V, L, W] Processing<'_, K, V, L, W>: "Processing";
    [K, V, L, W] Join<'_, K, V, L, W>: "Join";
    [K, V, L] Busy<'_, K, V, L>: "Busy";
    [K, V, L: Loader<K, V>, W: Writer<K, V>] Entry<'_, K, V, L, W>: "Entry";
    [V] Expected<V>: "Expected";
}

impl<K, V, L, W> Debug for Begun<'_, K, V, L, W> {
    fn fmt(&self, f: &mut Formatter<'_>) -> Result {
        f.write_str(match self {
            Begun::Done(_) => "Done",
            Begun::Load(_) => "Load",
            Begun::Write(_) => "Write",
            Begun::Process(_) => "Process",
            Begun::Joined(_) => "Joined",
            Begun::Busy(_) => "Busy",
        })
    }
}

impl<V> Debug for Op<V> {
    fn fmt(&self, f: &mut Formatter<'_>) -> Result {
        f.write_str(match self {
            Op::Get => "Get",
            Op::ContainsKey => "ContainsKey",
            Op::Put(_) => "Put",
            Op::GetAndPut(_) => "GetAndPut",
            Op::PutIfAbsent(_) => "PutIfAbsent",
            Op::Remove => "Remove",
            Op::RemoveIf(_) => "RemoveIf",
            Op::GetAndRemove => "GetAndRemove",
            Op::Replace(_) => "Replace",
            Op::ReplaceIf { .. } => "ReplaceIf",
            Op::GetAndReplace(_) => "GetAndReplace",
            Op::Clear => "Clear",
            Op::Load => "Load",
            Op::Reload => "Reload",
            Op::Invoke => "Invoke",
        })
    }
}
