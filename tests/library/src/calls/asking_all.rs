//! Each call for many keys once, with a loader and a writer that count how often they were called.
use super::asking::{Counting, Question};
use super::bytes::{key, value};
use super::is;
use jc_batch::{Batch, DeleteBatch, WriteBatch};
use jc_model::{Change, LoadAnswer, WriteAnswer, is_among};
use jc_outside::{
    CacheLoader, CacheWriter, Hands, LoadBatch, LoadDone, Outside, WriteDone, call_loader_all,
    call_writer_all,
};
use jc_types::Key;
use std::alloc::Global;
use std::process::Abort;
use std::sync::Wait;

fn about(key: Key, change: Change) -> Question {
    Question { key, change }
}

/// These are the answers, of which the last one is that of the second ask.
fn were_loaded(rt: &impl Abort, done: Vec<LoadDone<Question>>, want: [LoadAnswer; 2]) {
    let mut done = done;
    let [first, second] = want;
    let last = done.pop().expect(rt, "two done values");
    is(rt, last.into_answer(), second);
    let one = done.pop().expect(rt, "one done value");
    is(rt, one.into_answer(), first);
    assert!(rt; done.is_empty());
    done.destroy_empty();
}

/// These are the answers, of which the last one is that of the second ask.
fn were_written(rt: &impl Abort, done: Vec<WriteDone<Question>>, want: [WriteAnswer; 2]) {
    let mut done = done;
    let [first, second] = want;
    let last = done.pop().expect(rt, "two done values");
    is(rt, last.into_answer(), second);
    let one = done.pop().expect(rt, "one done value");
    is(rt, one.into_answer(), first);
    assert!(rt; done.is_empty());
    done.destroy_empty();
}

/// Asks for two keys in one call, which are answered so.
fn loads<R: Abort + Wait>(
    rt: &R,
    alloc: Global,
    hands: &mut Hands<Outside>,
    keys: [u8; 2],
    want: [LoadAnswer; 2],
) {
    let [first, second] = keys;
    let (a, b) = (key(rt, first), key(rt, second));
    let mut done = Vec::with_capacity(alloc, 2).expect(rt, "memory");
    let mut asks = Vec::with_capacity(alloc, 2).expect(rt, "memory");
    let mut batch = LoadBatch::with_capacity(alloc, 2).expect(rt, "memory");
    asks.push_reserved(about(a, Change::Delete));
    batch.insert(a);
    asks.push_reserved(about(b, Change::Delete));
    batch.insert(b);
    is(rt, batch.len(), 2);
    let _spent = call_loader_all(rt, hands, &mut asks, batch, &mut done);
    asks.destroy_empty();
    were_loaded(rt, done, want);
}

#[test]
fn calls_the_loader_once_for_all(rt: HostRuntime) {
    let alloc = rt.alloc();
    let loader: Box<dyn CacheLoader + Send + Drop> = Box::new(alloc, Counting { calls: 0 })
        .ok()
        .expect(&rt, "memory");
    let mut hands = Hands::new(Outside {
        loader: Some(loader),
        writer: None,
    });
    let found = LoadAnswer::Found(value(&rt, 2));
    loads(&rt, alloc, &mut hands, *b"-a", [LoadAnswer::Nothing, found]);
    loads(&rt, alloc, &mut hands, *b"a!", [LoadAnswer::Failed(4); 2]);
    let mut nobody = Hands::new(Outside {
        loader: None,
        writer: None,
    });
    loads(&rt, alloc, &mut nobody, *b"a!", [LoadAnswer::Nothing; 2]);
}

/// Asks to write two keys in one call. The writer leaves the first one.
fn writes<R: Abort + Wait>(rt: &R, alloc: Global, hands: &mut Hands<Outside>) {
    let (a, b, v) = (key(rt, b'a'), key(rt, b'b'), value(rt, 9));
    let mut done = Vec::with_capacity(alloc, 2).expect(rt, "memory");
    let mut asks = Vec::with_capacity(alloc, 2).expect(rt, "memory");
    let mut batch = WriteBatch::with_capacity(alloc, 2).expect(rt, "memory");
    asks.push_reserved(about(a, Change::Write(v)));
    batch.insert(a, v);
    assert!(rt; !is_among(&[a], &b));
    asks.push_reserved(about(b, Change::Write(v)));
    batch.insert(b, v);
    let returned = call_writer_all(rt, hands, asks, Batch::Writes(batch), &mut done);
    is(rt, returned, Ok(()));
    were_written(rt, done, [WriteAnswer::Failed(0), WriteAnswer::Done]);
}

/// Asks to delete two keys in one call. The writer leaves the first one.
fn deletes<R: Abort + Wait>(rt: &R, alloc: Global, hands: &mut Hands<Outside>) {
    let (a, b) = (key(rt, b'a'), key(rt, b'b'));
    let mut done = Vec::with_capacity(alloc, 2).expect(rt, "memory");
    let mut asks = Vec::with_capacity(alloc, 2).expect(rt, "memory");
    let mut batch = DeleteBatch::with_capacity(alloc, 2).expect(rt, "memory");
    asks.push_reserved(about(a, Change::Delete));
    batch.insert(a);
    assert!(rt; !is_among(&[a], &b));
    asks.push_reserved(about(b, Change::Delete));
    batch.insert(b);
    let returned = call_writer_all(rt, hands, asks, Batch::Deletes(batch), &mut done);
    is(rt, returned, Ok(()));
    were_written(rt, done, [WriteAnswer::Failed(0), WriteAnswer::Done]);
}

/// Asks for no change in one call. The writer fails, and says with which of its calls.
fn changes_nothing<R: Abort + Wait>(rt: &R, alloc: Global, hands: &mut Hands<Outside>, call: u32) {
    let mut done = Vec::with_capacity(alloc, 0).expect(rt, "memory");
    let asks: Vec<Question> = Vec::with_capacity(alloc, 0).expect(rt, "memory");
    let batch = DeleteBatch::with_capacity(alloc, 0).expect(rt, "memory");
    let returned = call_writer_all(rt, hands, asks, Batch::Deletes(batch), &mut done);
    is(rt, returned, Err(call));
    assert!(rt; done.is_empty());
    done.destroy_empty();
}

/// The writer leaves all but the last entry, and fails if there is none.
#[test]
fn calls_the_writer_once_for_all(rt: HostRuntime) {
    let alloc = rt.alloc();
    let writer: Box<dyn CacheWriter + Send + Drop> = Box::new(alloc, Counting { calls: 0 })
        .ok()
        .expect(&rt, "memory");
    let mut hands = Hands::new(Outside {
        loader: None,
        writer: Some(writer),
    });
    changes_nothing(&rt, alloc, &mut hands, 1);
    writes(&rt, alloc, &mut hands);
    deletes(&rt, alloc, &mut hands);
    changes_nothing(&rt, alloc, &mut hands, 4);
}
