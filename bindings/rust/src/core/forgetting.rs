//! What a desk forgets, since somebody else has written it in the store. None of this is a call.
use super::{Answer, Code, Desk, Invalidated, Room, Swept, checked, raw};

impl Desk {
    /// Forgets a key: no call that begins later is answered from what is cached or reserved of it now. It is never refused.
    ///
    /// Its entry is evicted at once. If the key is reserved, that is done when its ticket is committed or withdrawn; until then each
    /// call that begins at it is [`Refusal::Busy`](super::Refusal::Busy), and those that have joined its load are answered.
    ///
    /// # Errors
    /// [`Code::Misuse`]: the key is of another stripe. [`Code::BadArgument`]: it is out of its limits. [`Code::WrongHandle`].
    pub fn invalidate(&mut self, key: &[u8]) -> Result<Invalidated<'_>, Code> {
        let Room { handle, out } = &mut *self.room;
        // SAFETY: as in `begin`.
        checked(unsafe { raw::jc_invalidate(handle, key.as_ptr(), key.len(), out) })?;
        Ok(Invalidated {
            moves: out.moves(),
            is_shut: out.next == raw::NEXT_SHUT,
        })
    }

    /// Forgets all keys: those that are reserved as [`invalidate`](Desk::invalidate) says; and no call begins until
    /// [`sweep`](Desk::sweep) has evicted the entries of all others.
    ///
    /// # Errors
    /// [`Code::WrongHandle`].
    pub fn invalidate_all(&mut self) -> Result<(), Code> {
        // SAFETY: as in `begin`.
        checked(unsafe { raw::jc_invalidate_all(&mut self.room.handle) })
    }

    /// Evicts an entry of a desk that is shut, the least recently used one whose key isn't reserved.
    ///
    /// # Errors
    /// [`Code::WrongHandle`].
    pub fn sweep(&mut self) -> Result<Swept<'_>, Code> {
        let Room { handle, out } = &mut *self.room;
        // SAFETY: as in `begin`.
        checked(unsafe { raw::jc_sweep(handle, out) })?;
        Ok(match out.next {
            raw::NEXT_DONE => Swept::Open,
            raw::NEXT_SHUT => Swept::Evicted(out.moves()),
            raw::NEXT_NOT_YET => Swept::NotYet,
            raw::NEXT_FULL => Swept::Full,
            next => unreachable!("the core answered next {next}"),
        })
    }
}
