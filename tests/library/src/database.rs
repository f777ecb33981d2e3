use jc_outside::{Answers, CacheLoader, CacheWriter};
use jc_sqlite::code::{CLOSED, TOO_BIG};
use jc_sqlite::{
    Database, DatabaseLoader, DatabaseWriter, Failure, OpenCause, OpenError, OpenOptions, code_of,
};
use jc_types::{Key, VALUE_MAX, Value};
use sqlite::types::Type;
use sqlite::{Connection, Error, ErrorCode, params};
use std::alloc::Global;
use std::fmt::Debug;
use std::fs;
use std::process::Abort;
use std::sync::Wait;
use std::test::Fail;
use std::time::{Duration, Instant};

/// Options to open a locked file: in three tries, with two pauses.
fn patient() -> OpenOptions {
    OpenOptions {
        retries: 2,
        pause: Duration::from_millis(30),
    }
}

fn key(rt: &impl Abort) -> Key {
    Key::new(b"ann").expect(rt, "a key")
}

fn value(rt: &impl Abort) -> Value {
    Value::new(b"7").expect(rt, "a value")
}

/// The path of a test's file, and of the file beside it. Neither is there.
fn fresh(rt: &HostRuntime, path: &'static str, beside: &str) -> &'static str {
    let _ = fs::remove_file(rt, path);
    let _ = fs::remove_file(rt, beside);
    path
}

/// Why a file wasn't opened. Another outcome ends the test.
fn cause(rt: &impl Abort, outcome: Result<Database, OpenError>, path: &str) -> OpenCause {
    match outcome {
        Ok(_) => panic!(rt; "it was opened"),
        Err(error) => {
            assert_eq!(rt; error.path.as_str(), path);
            error.cause
        }
    }
}

/// A file that is open is locked: one try answers at once, and further tries take their pauses. Once the file is closed, it can
/// be opened.
#[test]
fn a_locked_file_is_tried_again(rt: HostRuntime) {
    let path = fresh(&rt, "jc_sqlite_locked.db", "jc_sqlite_locked.db-wal");
    let first = Database::open(&rt, path).expect(&rt, "a database");
    let start = Instant::now(&rt).expect(&rt, "a clock");
    assert_eq!(rt;
        cause(&rt, Database::open(&rt, path), path),
        OpenCause::Locked
    );
    let outcome = Database::open_with(&rt, path, &patient());
    assert_eq!(rt; cause(&rt, outcome, path), OpenCause::Locked);
    let taken = start.elapsed(&rt).expect(&rt, "a clock");
    assert!(rt; taken >= Duration::from_millis(60));
    drop(first);
    let second = Database::open_with(&rt, path, &patient()).expect(&rt, "a database");
    assert_eq!(rt; second.entry_count(&rt), Ok(0));
}

/// A file that can't be opened: the error's text names it.
#[test]
fn an_error_has_the_path(rt: HostRuntime) -> Result<(), Fail> {
    let Err(error) = Database::open(&rt, "nowhere/a.db") else {
        panic!(rt; "it was opened");
    };
    let text = format!(in rt.alloc(); "{error}")?;
    assert_eq!(rt; text.as_str(), "nowhere/a.db: unable to open database file");
    Ok(())
}

/// After a reopen the loader and the writer that were made before continue. If it fails, each call fails, until another one succeeds.
#[test]
fn loaders_and_writers_continue_after_a_reopen(rt: HostRuntime) {
    let path = fresh(&rt, "jc_sqlite_reopened.db", "jc_sqlite_reopened.db-wal");
    let database = Database::open(&rt, path).expect(&rt, "a database");
    let mut loader = DatabaseLoader::new(rt, &database).expect(&rt, "memory");
    let mut writer = DatabaseWriter::new(rt, &database).expect(&rt, "memory");
    let (key, value) = (key(&rt), value(&rt));
    assert_eq!(rt; writer.write(&key, &value), Ok(()));
    reopens(&rt, &rt, &database, true);
    assert_eq!(rt; loader.load(&key), Ok(Some(value)));

    put_away(&rt, &rt, path);
    reopens(&rt, &rt, &database, false);
    assert_eq!(rt; loader.load(&key), Err(CLOSED));
    assert_eq!(rt; writer.delete(&key), Err(CLOSED));
    put_back(&rt, &rt, path);
    reopens(&rt, &rt, &database, true);
    assert_eq!(rt; loader.load(&key), Ok(Some(value)));
}

/// Opens a database again, and compares whether that succeeds.
fn reopens(host: &HostRuntime, rt: &(impl Abort + Wait), database: &Database, wanted: bool) {
    let outcome = database.reopen(host, rt, &OpenOptions::ONCE);
    assert_eq!(rt; outcome.is_ok(), wanted);
}

/// The name of a file while a folder has taken its place.
const AWAY: &str = "jc_sqlite_reopened.away";

fn put_away(host: &HostRuntime, rt: &impl Abort, path: &str) {
    fs::rename(host, path, AWAY).expect(rt, "it is moved");
    fs::create_dir(host, path).expect(rt, "a folder is made");
}

fn put_back(host: &HostRuntime, rt: &impl Abort, path: &str) {
    fs::remove_dir(host, path).expect(rt, "the folder is removed");
    fs::rename(host, AWAY, path).expect(rt, "it is moved back");
}

/// Failures, each with SQLite's own code for it.
const CODES: [(Error, u32); 14] = [
    (Error::SqliteFailure(ErrorCode::DatabaseBusy), 5),
    (Error::SqliteFailure(ErrorCode::OutOfMemory), 7),
    (Error::SqliteFailure(ErrorCode::OperationInterrupted), 9),
    (Error::SqliteFailure(ErrorCode::SystemIoFailure), 10),
    (Error::SqliteFailure(ErrorCode::DatabaseCorrupt), 11),
    (Error::SqliteFailure(ErrorCode::DiskFull), 13),
    (Error::SqliteFailure(ErrorCode::CannotOpen), 14),
    (Error::SqliteFailure(ErrorCode::TooBig), 18),
    (Error::SqliteFailure(ErrorCode::TypeMismatch), 20),
    (Error::SqliteFailure(ErrorCode::Closed), 21),
    (Error::SqliteFailure(ErrorCode::NotADatabase), 26),
    (Error::InvalidColumnType(0, Type::Null), 20),
    (Error::QueryReturnedNoRows, 1),
    (Error::SqliteFailure(ErrorCode::BadText), 1),
];

/// Ends the test if the value found isn't the one wanted.
fn is<T: Copy + Debug + PartialEq>(rt: &impl Abort, found: T, wanted: T) {
    assert_eq!(rt; found, wanted);
}

#[test]
fn codes_are_those_of_sqlite(rt: HostRuntime) {
    for (error, wanted) in &CODES {
        is(&rt, code_of(*error), *wanted);
    }
}

/// Makes a table of another shape by another program's connection, and returns whether that succeeded.
fn makes_other_table(host: &HostRuntime, path: &str) -> bool {
    match Connection::open(host, path) {
        Ok(mut connection) => connection
            .execute_batch("CREATE TABLE entry (key TEXT, value TEXT)")
            .is_ok(),
        Err(_) => false,
    }
}

/// A table of another shape is refused.
#[test]
fn another_table_is_refused(rt: HostRuntime) {
    let path = fresh(&rt, "jc_sqlite_other.db", "jc_sqlite_other.db-wal");
    is(&rt, makes_other_table(&rt, path), true);
    is(
        &rt,
        cause(&rt, Database::open(&rt, path), path),
        OpenCause::OtherTable,
    );
}

/// The key of a value that another program writes, with a byte more than a cache's value has.
const LONG: &[u8] = b"ann";

/// Writes that value by another program's connection, and returns whether that succeeded.
fn writes_long(host: &HostRuntime, path: &str) -> bool {
    let long = [7u8; VALUE_MAX + 1];
    match Connection::open(host, path) {
        Ok(mut connection) => connection
            .execute(
                "INSERT INTO entry VALUES (?1, ?2)",
                params![LONG, long.as_slice()],
            )
            .is_ok(),
        Err(_) => false,
    }
}

/// A value that is too long fails its load, and a load of many keys, and the failure names its key. Other keys are loaded.
#[test]
fn a_value_that_is_too_long_is_told_by_its_key(rt: HostRuntime) {
    let path = fresh(&rt, "jc_sqlite_long.db", "jc_sqlite_long.db-wal");
    drop(Database::open(&rt, path).expect(&rt, "a database"));
    is(&rt, writes_long(&rt, path), true);
    let database = Database::open(&rt, path).expect(&rt, "a database");
    let loader = DatabaseLoader::new(rt, &database).expect(&rt, "memory");
    loads_but_long(&rt, rt.alloc(), loader);
    tells(&rt, rt.alloc(), database.last_error(&rt));
}

fn loads_but_long<R: Wait + Drop>(rt: &impl Abort, alloc: Global, loader: DatabaseLoader<R>) {
    let mut loader = loader;
    let (long, other) = (key(rt), Key::new(b"bob").expect(rt, "a key"));
    let mut answers = Answers::new(alloc, &[other, long]).expect(rt, "memory");
    is(rt, loader.load(&long), Err(TOO_BIG));
    is(rt, loader.load(&other), Ok(None));
    is(
        rt,
        loader.load_all(&[other, long], &mut answers),
        Err(TOO_BIG),
    );
}

/// Asserts that the failure that was kept names the key.
fn tells(rt: &impl Abort, alloc: Global, kept: Option<Failure>) {
    let Some(failure) = kept else {
        panic!(rt; "nothing was kept");
    };
    let text = format!(in alloc; "{failure}").expect(rt, "memory");
    is(
        rt,
        text.as_str(),
        "at the key \"ann\": string or blob too big",
    );
}
