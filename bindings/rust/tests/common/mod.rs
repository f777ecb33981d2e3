//! A store in memory that counts its calls, and fails or panics when it is told to.
#![allow(dead_code)]
pub mod timed;

use cadwrelch::{Cache, Loader, Shared, Writer};
use std::collections::HashMap;
use std::fmt;
use std::sync::atomic::{AtomicUsize, Ordering::SeqCst};
use std::sync::{Arc, Mutex};

#[derive(Debug, PartialEq, Eq)]
pub struct Broken(pub &'static str);

impl fmt::Display for Broken {
    fn fmt(&self, f: &mut fmt::Formatter<'_>) -> fmt::Result {
        f.write_str(self.0)
    }
}

impl std::error::Error for Broken {}

#[derive(Clone, Copy, Debug, Default, PartialEq, Eq)]
pub enum Mode {
    #[default]
    Works,
    Fails,
    Panics,
}

#[derive(Default)]
pub struct Store {
    pub held: Mutex<HashMap<String, String>>,
    pub loading: Mutex<Mode>,
    pub writing: Mutex<Mode>,
    pub loads: AtomicUsize,
    pub writes: AtomicUsize,
}

impl Store {
    pub fn get(&self, key: &str) -> Option<String> {
        self.held.lock().unwrap().get(key).cloned()
    }

    pub fn set(&self, key: &str, value: &str) {
        self.held.lock().unwrap().insert(key.into(), value.into());
    }

    fn check(mode: &Mutex<Mode>, why: &'static str) -> Result<(), Broken> {
        let mode = *mode.lock().unwrap();
        match mode {
            Mode::Works => Ok(()),
            Mode::Fails => Err(Broken(why)),
            Mode::Panics => panic!("{why}"),
        }
    }
}

/// A store as loader and writer.
pub type Outside = Shared<Store>;

impl Loader<String, String> for Store {
    type Error = Broken;

    fn load(&self, key: &String) -> Result<Option<String>, Broken> {
        self.loads.fetch_add(1, SeqCst);
        Store::check(&self.loading, "no load")?;
        Ok(self.get(key))
    }
}

impl Writer<String, String> for Store {
    type Error = Broken;

    fn write(&self, key: &String, value: &String) -> Result<(), Broken> {
        self.writes.fetch_add(1, SeqCst);
        Store::check(&self.writing, "no write")?;
        self.set(key, value);
        Ok(())
    }

    fn delete(&self, key: &String) -> Result<(), Broken> {
        self.writes.fetch_add(1, SeqCst);
        Store::check(&self.writing, "no delete")?;
        self.held.lock().unwrap().remove(key);
        Ok(())
    }
}

pub type Texts = Cache<String, String, Outside, Outside>;

pub fn cache_of(stripes: usize, capacity: usize) -> (Arc<Store>, Texts) {
    let store = Arc::new(Store::default());
    let cache = Cache::builder()
        .stripes(stripes)
        .capacity(stripes * capacity)
        .store(store.clone())
        .build()
        .unwrap();
    (store, cache)
}

pub fn text(value: &str) -> Option<Arc<String>> {
    Some(Arc::new(value.into()))
}
