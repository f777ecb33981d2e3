//! The keys that the calls name.
use jc_cache::Key;
use std::alloc::Global;

/// How many keys the calls name.
pub const KEYS: usize = 1024;

/// Keys of 16 bytes. Each stripe of 16 has the same number of them.
pub fn all_keys(alloc: Global) -> anyhow::Result<Vec<Key>> {
    let mut keys = Vec::with_capacity(alloc, KEYS)?;
    for i in 0..KEYS {
        let mut bytes = *b"a key 16 bytes..";
        bytes[14] = (i / 64) as u8;
        bytes[15] = (i % 64) as u8;
        keys.push_reserved(Key::new(&bytes)?);
    }
    Ok(keys)
}
