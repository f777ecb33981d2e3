//! A loader that keeps the last error of its database beside the code, where the program looks it up.
use super::is;
use jc_outside::CacheLoader;
use jc_plain::{Load, Loading};
use jc_types::{Key, Value};
use std::alloc::Global;
use std::sync::{Arc, Mutex, Wait};

/// The errors of the database.
#[derive(Clone, Copy, Debug, PartialEq, Drop)]
enum TableError {
    Locked,
    NoRow { after: u32 },
}

impl TableError {
    fn code(&self) -> u32 {
        match self {
            TableError::Locked => 5,
            TableError::NoRow { after: _ } => 7,
        }
    }
}

/// A table that is locked at the key `l`, and has no row at any other.
fn find(key: &Key) -> Result<Option<Value>, TableError> {
    match key.bytes() {
        b"l" => Err(TableError::Locked),
        _ => Err(TableError::NoRow { after: 3 }),
    }
}

#[derive(Drop)]
struct Rows<R: Wait + Drop> {
    rt: R,
    last: Arc<Mutex<Option<TableError>>, Global>,
}

impl<R: Wait + Drop> Load for Rows<R> {
    fn load(&mut self, key: &Key) -> Result<Option<Value>, u32> {
        match find(key) {
            Ok(row) => Ok(row),
            Err(error) => {
                *self.last.lock(&self.rt) = Some(error);
                Err(error.code())
            }
        }
    }
}

#[test]
fn an_error_stays_beside_its_code(rt: HostRuntime) {
    let last = Arc::new(rt.alloc(), Mutex::new(None))
        .ok()
        .expect(&rt, "memory");
    let shared = Arc::try_clone(&last).ok().expect(&rt, "memory");
    let mut loader = Loading {
        loader: Rows { rt, last: shared },
    };
    is(&rt, "code", loader.load(&super::key(&rt, b'l')), Err(5));
    is(&rt, "error", *last.lock(&rt), Some(TableError::Locked));
    is(&rt, "code", loader.load(&super::key(&rt, b'x')), Err(7));
    is(
        &rt,
        "error",
        *last.lock(&rt),
        Some(TableError::NoRow { after: 3 }),
    );
}
