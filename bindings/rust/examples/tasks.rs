//! Async tasks over one cache, with an executor of forty lines: `cargo run --example tasks`.
//!
//! Half of the tasks call `get_with`; the others have the same in phases, which are public, and await their store between them. A task that waits for another's load is woken when
//! that load is over; one that is dropped on the way leaves no key reserved.
use cadwrelch::call::Begun;
use cadwrelch::{ByCall, Cache, Error, NoWriter, Op, Reply};
use std::collections::VecDeque;
use std::convert::Infallible;
use std::future::Future;
use std::pin::Pin;
use std::sync::atomic::{AtomicUsize, Ordering::Relaxed};
use std::sync::{Arc, Mutex};
use std::task::{Context, Poll, Wake, Waker};

type LoadError = std::io::Error;
type Lengths = Cache<String, usize, ByCall<LoadError>, NoWriter>;

/// A store whose answer takes a turn of the executor.
struct Slow {
    loads: AtomicUsize,
}

impl Slow {
    async fn load(&self, key: &str) -> Result<Option<usize>, LoadError> {
        self.loads.fetch_add(1, Relaxed);
        Yield(false).await;
        Ok(Some(key.len()))
    }
}

async fn get(
    cache: &Lengths,
    store: &Slow,
    key: String,
) -> Result<Option<Arc<usize>>, Error<LoadError, Infallible>> {
    loop {
        let reply = match cache.begin(key.clone(), &Op::Get)? {
            Begun::Done(reply) => Some(reply),
            Begun::Load(ticket) => {
                let asked = ticket.ask();
                let loaded = store.load(asked.key()).await;
                Some(asked.commit(loaded)?)
            }
            Begun::Joined(join) => join.await?,
            Begun::Busy(busy) => {
                busy.await;
                None
            }
            Begun::Write(_) | Begun::Process(_) => unreachable!("a get asks a loader"),
        };
        if let Some(Reply::Value(value)) = reply {
            return Ok(value);
        }
    }
}

fn main() -> Result<(), Box<dyn std::error::Error>> {
    let cache: Lengths = Cache::builder().loader(ByCall::new()).build()?;
    let store = Slow {
        loads: AtomicUsize::new(0),
    };
    let mut executor = Executor::default();
    for task in 0..12 {
        let (cache, store) = (&cache, &store);
        executor.spawn(async move {
            let key = "x".repeat(task % 3 + 1);
            let length = match task % 2 {
                0 => get(cache, store, key).await,
                _ => cache.get_with(key.clone(), store.load(&key)).await,
            };
            match length {
                Ok(length) => println!("task {task}: {}", length.map_or(0, |it| *it)),
                Err(error) => println!("task {task}: {error}"),
            }
        });
    }
    executor.run();
    println!("{} loads, {:?}", store.loads.load(Relaxed), cache.stats()?);
    Ok(())
}

/// Gives the other tasks a turn.
struct Yield(bool);

impl Future for Yield {
    type Output = ();

    fn poll(mut self: Pin<&mut Self>, context: &mut Context<'_>) -> Poll<()> {
        if self.0 {
            return Poll::Ready(());
        }
        self.0 = true;
        context.waker().wake_by_ref();
        Poll::Pending
    }
}

/// The tasks that are to be polled, by their numbers.
type Ready = Arc<Mutex<VecDeque<usize>>>;

struct Task {
    number: usize,
    ready: Ready,
}

impl Wake for Task {
    fn wake(self: Arc<Self>) {
        self.ready.lock().unwrap().push_back(self.number);
    }
}

#[derive(Default)]
struct Executor<'t> {
    tasks: Vec<Option<Pin<Box<dyn Future<Output = ()> + 't>>>>,
    ready: Ready,
}

impl<'t> Executor<'t> {
    fn spawn(&mut self, task: impl Future<Output = ()> + 't) {
        self.ready.lock().unwrap().push_back(self.tasks.len());
        self.tasks.push(Some(Box::pin(task)));
    }

    fn run(&mut self) {
        while let Some(number) = self.next() {
            let waker = Waker::from(Arc::new(Task {
                number,
                ready: self.ready.clone(),
            }));
            let mut context = Context::from_waker(&waker);
            let Some(task) = &mut self.tasks[number] else {
                continue;
            };
            if task.as_mut().poll(&mut context).is_ready() {
                self.tasks[number] = None;
            }
        }
    }

    fn next(&self) -> Option<usize> {
        self.ready.lock().unwrap().pop_front()
    }
}
