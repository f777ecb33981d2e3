//! The loops of loads.
use jc_outside::{Answers, CacheLoader};
use jc_sqlite::DatabaseLoader;
use jc_types::Key;
use std::alloc::{AllocError, Global};
use std::sync::Wait;

/// Loads each key so often, by itself. How many loads found a value.
pub fn load_each<R: Wait + Drop>(loader: &mut DatabaseLoader<R>, keys: &[Key], rounds: u32) -> u64 {
    let mut found = 0u64;
    for _round in 0..rounds {
        found = found.saturating_add(load_once(loader, keys));
    }
    found
}

fn load_once<R: Wait + Drop>(loader: &mut DatabaseLoader<R>, keys: &[Key]) -> u64 {
    let mut found = 0u64;
    for key in keys {
        if let Ok(Some(_value)) = loader.load(key) {
            found = found.saturating_add(1);
        }
    }
    found
}

/// Loads all keys so often, by one `load_all`. How many answers it had.
pub fn load_all_each<R: Wait + Drop>(
    alloc: Global,
    loader: &mut DatabaseLoader<R>,
    keys: &[Key],
    rounds: u32,
) -> Result<u64, AllocError> {
    let mut found = 0u64;
    for _round in 0..rounds {
        found = found.saturating_add(load_all_once(alloc, loader, keys)?);
    }
    Ok(found)
}

fn load_all_once<R: Wait + Drop>(
    alloc: Global,
    loader: &mut DatabaseLoader<R>,
    keys: &[Key],
) -> Result<u64, AllocError> {
    let mut answers = Answers::new(alloc, keys)?;
    if loader.load_all(keys, &mut answers).is_err() {
        return Ok(0);
    }
    Ok(answered(keys, &answers))
}

/// How many of the keys have an answer.
fn answered(keys: &[Key], answers: &Answers) -> u64 {
    let mut found = 0u64;
    for key in keys {
        if answers.get(key).is_some() {
            found = found.saturating_add(1);
        }
    }
    found
}
