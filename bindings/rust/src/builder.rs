//! Builds a cache.
use crate::at::{Name, shown};
use crate::cache::Cache;
use crate::core::Shape;
use crate::error::{BuildError, Error};
use crate::expiry::Expiry;
use crate::lives::{Lives, Times};
use crate::outside::{Loader, NoLoader, NoWriter, Shared, Writer};
use crate::refresh::{Executor, Job, OnRefreshError, Reloading, own_threads, reloading};
use crate::sizes::{STRIPES_MAX, Sizes, wrong};
use crate::stripe::{Listener, Stripe};
use std::convert::Infallible;
use std::fmt;
use std::hash::Hash;
use std::sync::Arc;
use std::time::Duration;

/// What is set, whatever loader and writer are.
#[derive(Clone)]
struct Settings<K, V> {
    sizes: Sizes,
    read_through: bool,
    write_through: bool,
    times: Times<K, V>,
    name: Name<K>,
    executor: Option<Executor>,
    listener: Option<Listener<K, V>>,
    tells_refresh_errors: bool,
}

/// Builds a [`Cache`]. It is made by [`Cache::builder`].
#[derive(Clone)]
#[must_use]
pub struct Builder<K, V, L = NoLoader, W = NoWriter>
where
    L: Loader<K, V>,
{
    set: Settings<K, V>,
    loader: L,
    writer: W,
    /// None: the loader was given after the age at which entries are reloaded.
    reloading: Option<Reloading<K, V, L>>,
    /// None also if the loader was given after it.
    on_refresh_error: Option<OnRefreshError<K, L::Error>>,
}

impl<K, V, L: Loader<K, V>, W> fmt::Debug for Builder<K, V, L, W> {
    fn fmt(&self, f: &mut fmt::Formatter<'_>) -> fmt::Result {
        f.debug_struct("Builder")
            .field("sizes", &self.set.sizes)
            .field("read_through", &self.set.read_through)
            .field("write_through", &self.set.write_through)
            .field("times", &self.set.times)
            .finish_non_exhaustive()
    }
}

impl<K, V> Builder<K, V> {
    pub(crate) fn new() -> Self {
        Builder {
            set: Settings {
                sizes: Sizes::default(),
                read_through: false,
                write_through: false,
                times: Times::default(),
                name: Name::NONE,
                executor: None,
                listener: None,
                tells_refresh_errors: false,
            },
            loader: NoLoader,
            writer: NoWriter,
            reloading: None,
            on_refresh_error: None,
        }
    }
}

impl<K, V, L: Loader<K, V>, W> Builder<K, V, L, W> {
    /// What errors call this cache: with a name they say of which cache they are and of which key, as its `Debug` writes it, cut to 80
    /// characters. That is why this asks for `Debug`: keys of a cache without a name need none, and its errors name neither. A key is
    /// written when its call has failed, once, with no lock held.
    ///
    /// ```
    /// use cadwrelch::Cache;
    ///
    /// let read = |path: &String| std::fs::read_to_string(path).map(Some);
    /// let files = Cache::<String, String>::builder().loader(read).name("files").build()?;
    /// let error = files.get("nowhere").unwrap_err();
    /// assert!(error.to_string().starts_with(r#"the loader failed (key "nowhere", cache files): "#));
    /// # Ok::<(), Box<dyn std::error::Error>>(())
    /// ```
    pub fn name(mut self, name: impl Into<Arc<str>>) -> Self
    where
        K: fmt::Debug,
    {
        self.set.name = Name::new(name, shown);
        self
    }

    /// How many entries the whole cache has room for: at least 1, and 1 to 4,096 for each stripe; without it 65,536. A new key evicts
    /// the entry of its stripe that was used longest ago.
    pub fn capacity(mut self, entries: usize) -> Self {
        self.set.sizes.capacity = Some(entries);
        self
    }

    /// How many stripes: 1 to 4,096. Calls in different stripes share no lock. Without it a cache of up to 511 entries has one stripe,
    /// and so is full with exactly its capacity; a larger one has a stripe for each 256, up to 16, and more if it needs them.
    pub fn stripes(mut self, stripes: usize) -> Self {
        self.set.sizes.stripes = Some(stripes);
        self
    }

    /// How many events of each stripe's history, 16 to 65,536, before it begins another one; 884 bytes each. A call under way needs room
    /// for three, and one that has joined a load for one: with 260, as without this, there is room for as many as there can be. With
    /// fewer, calls at other keys of the stripe wait beside a slow load that many have joined.
    pub fn history(mut self, events: usize) -> Self {
        self.set.sizes.history = Some(events);
        self
    }

    /// Whether a `get` of a missing key asks the loader: true once a loader is given. If not, only `load_all` asks it.
    pub fn read_through(mut self, is_on: bool) -> Self {
        self.set.read_through = is_on;
        self
    }

    /// Whether mutations are written: true once a writer is given.
    pub fn write_through(mut self, is_on: bool) -> Self {
        self.set.write_through = is_on;
        self
    }

    /// What reads the store.
    pub fn loader<N: Loader<K, V>>(mut self, loader: N) -> Builder<K, V, N, W> {
        self.set.read_through = true;
        Builder {
            set: self.set,
            loader,
            writer: self.writer,
            reloading: None,
            on_refresh_error: None,
        }
    }

    /// What changes the store.
    pub fn writer<N: Writer<K, V>>(mut self, writer: N) -> Builder<K, V, L, N> {
        self.set.write_through = true;
        Builder {
            set: self.set,
            loader: self.loader,
            writer,
            reloading: self.reloading,
            on_refresh_error: self.on_refresh_error,
        }
    }

    /// What reads the store and changes it.
    pub fn store<T>(self, store: Arc<T>) -> Builder<K, V, Shared<T>, Shared<T>>
    where
        T: Loader<K, V> + Writer<K, V>,
    {
        self.loader(Shared(store.clone())).writer(Shared(store))
    }

    /// How long an entry lives after its value was put or loaded. One that lives for `Duration::ZERO` is never found.
    ///
    /// The call that meets an expired entry uncaches it, as a step of its own, and then goes on as if the key hadn't been cached. If
    /// another call has reserved the key, it waits for that, but for a `contains_key`, which answers no. While no entry can expire, the
    /// clock isn't read.
    ///
    /// ```
    /// use cadwrelch::Cache;
    /// use std::sync::Arc;
    /// use std::sync::atomic::{AtomicU64, Ordering::SeqCst};
    /// use std::time::Duration;
    ///
    /// let seconds = Arc::new(AtomicU64::new(0));
    /// let clock = seconds.clone();
    /// let cache = Cache::<&str, u32>::builder()
    ///     .time_to_live(Duration::from_secs(60))
    ///     .clock(move || Duration::from_secs(clock.load(SeqCst)))
    ///     .build()?;
    /// cache.put("a", 1)?;
    /// seconds.store(59, SeqCst);
    /// assert_eq!(cache.get(&"a")?.as_deref(), Some(&1));
    /// seconds.store(60, SeqCst);
    /// assert_eq!(cache.get(&"a")?, None);
    /// # Ok::<(), Box<dyn std::error::Error>>(())
    /// ```
    pub fn time_to_live(mut self, time: Duration) -> Self {
        self.set.times.live = Some(time);
        self
    }

    /// How long an entry lives after it was used last: after its value came, or was read. Which calls read it says [`Expiry`].
    pub fn time_to_idle(mut self, time: Duration) -> Self {
        self.set.times.idle = Some(time);
        self
    }

    /// What says of each entry how long it lives. Beside it [`time_to_live`](Builder::time_to_live) and
    /// [`time_to_idle`](Builder::time_to_idle) count: what comes first. A policy that is to be looked at later is given in an [`Arc`].
    pub fn expiry(mut self, policy: impl Expiry<K, V> + Send + Sync + 'static) -> Self {
        self.set.times.policy = Some(Arc::new(policy));
        self
    }

    /// How long an entry is young, more than nothing: a `get`, also of many keys, that finds an older one answers it at once, and has it
    /// loaded again in the background by [`Loader::load`]. Puts of that key wait for the reload, so it never overwrites a newer value. A
    /// reload that fails ([`on_refresh_error`](Builder::on_refresh_error)), or finds nothing, leaves the entry until it is old once
    /// more; if the key is reserved, or its stripe has no room, it is left out. The loader is given before.
    ///
    /// ```
    /// use cadwrelch::Cache;
    /// use std::time::Duration;
    ///
    /// let cache = Cache::<String, String>::builder()
    ///     .loader(|path: &String| std::fs::read_to_string(path).map(Some))
    ///     .refresh_after(Duration::from_secs(60))
    ///     .build()?;
    /// # Ok::<(), Box<dyn std::error::Error>>(())
    /// ```
    pub fn refresh_after(mut self, age: Duration) -> Self
    where
        K: Eq + Hash + Send + Sync + 'static,
        V: Send + Sync + 'static,
        L: Send + Sync + 'static,
        L::Error: Send + Sync + 'static,
    {
        self.set.times.refresh = Some(age);
        self.reloading = Some(reloading);
        self
    }

    /// Who is told of each reload that fails, in the background, where no call has its error: of its key, and why
    /// ([`Error::Loader`](crate::Error::Loader), [`Error::LoaderPanicked`](crate::Error::LoaderPanicked)). It is called on the thread
    /// that has reloaded, with no lock held, and the key is free; if it panics, so does the job. A reload that finds nothing hasn't
    /// failed, nor has one that was left out. The loader is given before. Without it nobody is told.
    ///
    /// ```
    /// use cadwrelch::Cache;
    /// use std::time::Duration;
    ///
    /// let cache = Cache::<String, String>::builder()
    ///     .loader(|path: &String| std::fs::read_to_string(path).map(Some))
    ///     .refresh_after(Duration::from_secs(60))
    ///     .on_refresh_error(|path, error| eprintln!("{path} is as it was: {error}"))
    ///     .build()?;
    /// # Ok::<(), Box<dyn std::error::Error>>(())
    /// ```
    pub fn on_refresh_error(
        mut self,
        tell: impl Fn(&Arc<K>, &Error<L::Error, Infallible>) + Send + Sync + 'static,
    ) -> Self {
        self.on_refresh_error = Some(Arc::new(tell));
        self.set.tells_refresh_errors = true;
        self
    }

    /// Who runs reloads, in place of up to four threads of the cache's own, which end when they have nothing to do. It should have
    /// threads of its own: what runs a job at once keeps the `get` that found an old entry.
    pub fn executor(mut self, run: impl Fn(Job) + Send + Sync + 'static) -> Self {
        self.set.executor = Some(Arc::new(run));
        self
    }

    /// How long it is remembered that a `get`, also of many keys, has found nothing, more than nothing. Meanwhile those and
    /// `contains_key` answer that there is nothing, and nobody is asked; any other call at the key forgets it first. It takes the room
    /// of an entry, which `keys` and `len` leave out, and no use makes its time longer. Read-through has to be on.
    pub fn absent_for(mut self, time: Duration) -> Self {
        self.set.times.absent = Some(time);
        self
    }

    /// Who is told of each entry that a full stripe evicts, after that, with no lock held, by the call that brought another one. An
    /// entry that is removed, replaced or forgotten, or has expired, isn't evicted. It may call the cache as a loader may. If it panics
    /// that goes on, and the call has taken effect.
    pub fn eviction_listener(
        mut self,
        listener: impl Fn(&Arc<K>, &Arc<V>) + Send + Sync + 'static,
    ) -> Self {
        self.set.listener = Some(Arc::new(listener));
        self
    }

    /// What the cache takes the time from: a function that says how much has passed since some moment, never goes back, and doesn't call
    /// the cache. Without it that is the system's monotonic clock. It is read with no lock held, and only while an entry may expire.
    pub fn clock(mut self, clock: impl Fn() -> Duration + Send + Sync + 'static) -> Self {
        self.set.times.clock = Some(Arc::new(clock));
        self
    }

    /// The cache.
    ///
    /// # Errors
    /// [`BuildError::Option`]: an option is out of its limits. [`BuildError::NoMemory`]. [`BuildError::Version`]: `CADWRELCH_CORE`
    /// named a library of another version at the build.
    pub fn build(self) -> Result<Cache<K, V, L, W>, BuildError>
    where
        L: Loader<K, V>,
        W: Writer<K, V>,
    {
        self.check()?;
        let set = self.set;
        let shapes = set
            .sizes
            .shapes(STRIPES_MAX, set.read_through, set.write_through)?;
        let lives = Arc::new(Lives::new(set.times));
        // A key's number says nothing of its stripe, which is chosen by its hash: each desk is a cache of one stripe.
        let stripes: Result<Arc<[_]>, _> = shapes
            .map(|shape| {
                Stripe::open(
                    &Shape {
                        stripes: 1,
                        ..shape
                    },
                    lives.clone(),
                    set.listener.clone(),
                    set.name.clone(),
                )
            })
            .collect();
        let (stripes, loader) = (stripes?, Arc::new(self.loader));
        if let Some(reloading) = self.reloading {
            let executor = set.executor.unwrap_or_else(own_threads);
            let tell = self.on_refresh_error;
            lives.set_reload(reloading(&stripes, &loader, executor, tell));
        }
        Ok(Cache::new(stripes, lives, loader, self.writer))
    }

    fn check(&self) -> Result<(), BuildError> {
        let Times {
            refresh, absent, ..
        } = self.set.times;
        for (option, given) in [("refresh_after", refresh), ("absent_for", absent)] {
            if let Some(given) = given.filter(Duration::is_zero) {
                return Err(wrong(option, given, "longer than 0"));
            }
        }
        match (refresh, absent) {
            (Some(given), _) if self.reloading.is_none() => {
                Err(wrong("refresh_after", given, "set after the loader"))
            }
            _ if self.set.tells_refresh_errors && self.on_refresh_error.is_none() => {
                let given = format_args!("set");
                Err(wrong("on_refresh_error", given, "set after the loader"))
            }
            (_, Some(given)) if !self.set.read_through => {
                let wanted = "left out while read-through is off";
                Err(wrong("absent_for", given, wanted))
            }
            _ => Ok(()),
        }
    }
}
