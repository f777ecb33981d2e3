//! Several caches before one store, whose engine is a stand-in: it announces each write to each connection, in order, and may be silent,
//! lose connections, or refuse them.
use cadwrelch::fleet::{
    self, Announcements, Conflict, Fault, Fleet, FleetBuilder, FleetState, OpenError, Told,
};
use cadwrelch::{BytesCache, Cache, Error, Loader, Shared, Writer};
use std::collections::HashMap;
use std::sync::mpsc::{Receiver, RecvTimeoutError, Sender, channel};
use std::sync::{Arc, Mutex};
use std::thread::{scope, sleep};
use std::time::{Duration, Instant};

/// Longer than anything takes.
const LONG: Duration = Duration::from_secs(60);

fn ms(count: u64) -> Duration {
    Duration::from_millis(count)
}

enum Sent {
    Told(Told<String>),
    Answer,
    Woken,
    End,
}

#[derive(Clone, Copy, Debug, Default, PartialEq, Eq)]
enum Mode {
    #[default]
    Works,
    /// Nothing more is heard of it.
    Silent,
    Refuses,
    /// Something isn't as it has to be.
    Wrong,
    Panics,
}

#[derive(Default)]
struct Engine {
    values: Mutex<HashMap<String, u32>>,
    connections: Mutex<Vec<Sender<Sent>>>,
    mode: Mutex<Mode>,
    loads: Mutex<u32>,
}

impl Engine {
    fn mode(&self) -> Mode {
        *self.mode.lock().unwrap()
    }

    fn set_mode(&self, mode: Mode) {
        *self.mode.lock().unwrap() = mode;
    }

    fn announce(&self, told: &Told<String>) {
        let connections = self.connections.lock().unwrap();
        if self.mode() != Mode::Silent {
            for connection in connections.iter() {
                let _ = connection.send(Sent::Told(told.clone()));
            }
        }
    }

    /// Any client's write.
    fn set(&self, key: &str, value: u32) {
        self.values.lock().unwrap().insert(key.to_string(), value);
        self.announce(&Told::Key(key.to_string()));
    }

    fn end_connections(&self) {
        for connection in self.connections.lock().unwrap().drain(..) {
            let _ = connection.send(Sent::End);
        }
    }

    fn loads(&self) -> u32 {
        *self.loads.lock().unwrap()
    }
}

impl Loader<String, u32> for Engine {
    type Error = String;

    fn load(&self, key: &String) -> Result<Option<u32>, String> {
        *self.loads.lock().unwrap() += 1;
        Ok(self.values.lock().unwrap().get(key).copied())
    }
}

impl Writer<String, u32> for Engine {
    type Error = String;

    fn write(&self, key: &String, value: &u32) -> Result<(), String> {
        self.set(key, *value);
        Ok(())
    }

    fn delete(&self, key: &String) -> Result<(), String> {
        self.values.lock().unwrap().remove(key);
        self.announce(&Told::Key(key.clone()));
        Ok(())
    }
}

/// A connection.
struct Line {
    engine: Arc<Engine>,
    sends: Sender<Sent>,
    hears: Receiver<Sent>,
    is_answered: bool,
}

impl Line {
    fn new(engine: &Arc<Engine>) -> Line {
        let (sends, hears) = channel();
        Line {
            engine: engine.clone(),
            sends,
            hears,
            is_answered: false,
        }
    }
}

impl Announcements<String> for Line {
    fn open(&mut self, _patience: Duration) -> Result<(), OpenError> {
        match self.engine.mode() {
            Mode::Refuses => Err(OpenError::Unreachable("the engine is down".into())),
            Mode::Wrong => Err(OpenError::Setup("there is no trigger".into())),
            Mode::Panics => panic!("no connection"),
            _ => {
                while self.hears.try_recv().is_ok() {}
                let mut connections = self.engine.connections.lock().unwrap();
                connections.push(self.sends.clone());
                Ok(())
            }
        }
    }

    fn wait(&mut self, time: Duration) -> Result<Vec<Told<String>>, Fault> {
        let mut told = Vec::new();
        let mut next = self.hears.recv_timeout(time);
        loop {
            match next {
                Ok(Sent::Told(it)) => told.push(it),
                Ok(Sent::Answer) => self.is_answered = true,
                Ok(Sent::End) => return Err("the connection has ended".into()),
                Ok(Sent::Woken) => {}
                Err(RecvTimeoutError::Timeout) => return Ok(told),
                Err(RecvTimeoutError::Disconnected) => unreachable!("it sends to itself"),
            }
            next = self.hears.recv_timeout(Duration::ZERO);
        }
    }

    fn probe(&mut self) -> Result<(), Fault> {
        self.is_answered = false;
        if self.engine.mode() != Mode::Silent {
            self.sends.send(Sent::Answer)?;
        }
        Ok(())
    }

    fn is_answered(&self) -> bool {
        self.is_answered
    }

    fn close(&mut self) {}

    fn waker(&self) -> Box<dyn Fn() + Send + Sync> {
        let sends = Mutex::new(self.sends.clone());
        Box::new(move || sends.lock().unwrap().send(Sent::Woken).unwrap_or(()))
    }
}

type Texts = Cache<String, u32, Shared<Engine>, Shared<Engine>>;

fn cache_of(engine: &Arc<Engine>) -> Arc<Texts> {
    Arc::new(Cache::builder().store(engine.clone()).build().unwrap())
}

fn get(cache: &Texts, key: &str) -> Option<u32> {
    cache.get(key).unwrap().map(|it| *it)
}

/// A fleet whose times are short, and the states that it has told.
fn spawned(
    cache: &Arc<Texts>,
    engine: &Arc<Engine>,
    times: fn(FleetBuilder<String, Texts, Line>) -> FleetBuilder<String, Texts, Line>,
) -> (Result<Fleet, Fault>, Receiver<FleetState>) {
    let (tell, told) = channel();
    let builder = Fleet::builder(cache.clone(), Line::new(engine))
        .beat(ms(20))
        .patience(ms(200))
        .retry(ms(5))
        .on_state(move |state| tell.send(state).unwrap_or(()));
    (times(builder).spawn(), told)
}

fn live(cache: &Arc<Texts>, engine: &Arc<Engine>) -> Fleet {
    spawned(cache, engine, |it| it).0.unwrap()
}

#[test]
fn what_anybody_writes_is_seen_by_all() {
    let engine = Arc::new(Engine::default());
    let caches = [cache_of(&engine), cache_of(&engine)];
    let fleets = caches.each_ref().map(|cache| live(cache, &engine));
    engine.set("a", 1);
    for value in 2..50 {
        for cache in &caches {
            get(cache, "a");
        }
        match value % 3 {
            0 => engine.set("a", value),
            writer => caches[writer as usize - 1].put("a".into(), value).unwrap(),
        }
        assert!(fleets.iter().all(|fleet| fleet.catch_up(LONG)));
        for cache in &caches {
            assert_eq!(get(cache, "a"), Some(value));
        }
    }
    let before = engine.loads();
    assert_eq!(get(&caches[0], "a"), get(&caches[1], "a"));
    assert_eq!(engine.loads(), before, "what nobody has changed is kept");
    assert!(
        fleets
            .iter()
            .all(|it| it.is_live() && it.stats().told == 49)
    );
}

/// The control: without a fleet an old value stays.
#[test]
fn without_announcements_an_old_value_stays() {
    let engine = Arc::new(Engine::default());
    let cache = cache_of(&engine);
    engine.set("a", 1);
    assert_eq!(get(&cache, "a"), Some(1));
    engine.set("a", 2);
    assert_eq!(get(&cache, "a"), Some(1));
    let fleet = live(&cache, &engine);
    assert_eq!(get(&cache, "a"), Some(2), "it began with nothing");
    fleet.close();
    assert!(cache.is_suspended());
}

#[test]
fn all_keys_may_be_announced() {
    let engine = Arc::new(Engine::default());
    let cache = cache_of(&engine);
    let fleet = live(&cache, &engine);
    engine.set("a", 1);
    assert!(fleet.catch_up(LONG));
    assert_eq!(get(&cache, "a"), Some(1));
    engine.values.lock().unwrap().clear();
    engine.announce(&Told::All);
    assert!(fleet.catch_up(LONG));
    assert_eq!(get(&cache, "a"), None);
    assert_eq!(fleet.stats().all, 1);
}

#[test]
fn a_connection_that_ends_is_made_anew() {
    let engine = Arc::new(Engine::default());
    let cache = cache_of(&engine);
    let (fleet, told) = spawned(&cache, &engine, |it| it);
    let fleet = fleet.unwrap();
    engine.set("a", 1);
    assert!(fleet.catch_up(LONG));
    assert_eq!(get(&cache, "a"), Some(1));
    engine.set_mode(Mode::Refuses);
    engine.end_connections();
    engine.values.lock().unwrap().insert("a".into(), 2);
    assert_eq!(told.recv().unwrap(), FleetState::Live);
    assert_eq!(told.recv().unwrap(), FleetState::Suspended);
    assert!(cache.is_suspended() && !fleet.is_live());
    assert_eq!(get(&cache, "a"), Some(2), "each call asks the store");
    assert!(fleet.catch_up(LONG), "nothing is kept, so it is so");
    engine.set_mode(Mode::Works);
    assert!(fleet.wait_until_live(LONG));
    assert_eq!(fleet.error(), None);
    let stats = fleet.stats();
    assert_eq!((stats.connections, stats.lost), (2, 1));
}

/// The cache answers nothing older than beat and patience, and what the test itself takes.
#[test]
fn a_silent_connection_is_lost_after_beat_and_patience() {
    let engine = Arc::new(Engine::default());
    let cache = cache_of(&engine);
    let (fleet, told) = spawned(&cache, &engine, |it| it);
    let fleet = fleet.unwrap();
    assert_eq!(told.recv().unwrap(), FleetState::Live);
    engine.set("a", 1);
    assert!(fleet.catch_up(LONG));
    assert_eq!(get(&cache, "a"), Some(1));
    engine.set_mode(Mode::Silent);
    let silent = Instant::now();
    engine.set("a", 2);
    assert!(!fleet.catch_up(ms(1)), "nobody answers");
    assert_eq!(told.recv().unwrap(), FleetState::Suspended);
    assert!(silent.elapsed() >= ms(150), "it is patient");
    assert_eq!(get(&cache, "a"), Some(2));
}

#[test]
fn in_the_time_of_grace_the_cache_answers_what_it_has() {
    let engine = Arc::new(Engine::default());
    let cache = cache_of(&engine);
    let (fleet, told) = spawned(&cache, &engine, |it| it.grace(ms(100)));
    let fleet = fleet.unwrap();
    engine.set("a", 1);
    assert!(fleet.catch_up(LONG));
    assert_eq!(get(&cache, "a"), Some(1));
    engine.set_mode(Mode::Refuses);
    engine.end_connections();
    assert_eq!(told.recv().unwrap(), FleetState::Live);
    assert_eq!(told.recv().unwrap(), FleetState::Lost);
    let lost = Instant::now();
    assert_eq!(told.recv().unwrap(), FleetState::Suspended);
    assert!(lost.elapsed() >= ms(90));
    assert!(cache.is_suspended());
    engine.set_mode(Mode::Works);
    assert!(fleet.wait_until_live(LONG));
    assert!(!cache.is_suspended());
}

#[test]
fn an_engine_that_is_down_is_tried_again_and_a_wrong_one_refused() {
    let engine = Arc::new(Engine::default());
    let cache = cache_of(&engine);
    engine.set_mode(Mode::Wrong);
    let (refused, _told) = spawned(&cache, &engine, |it| it);
    assert_eq!(refused.unwrap_err().to_string(), "there is no trigger");
    assert!(cache.is_suspended());
    engine.set_mode(Mode::Refuses);
    let (fleet, _told) = spawned(&cache, &engine, |it| it);
    let fleet = fleet.unwrap();
    assert_eq!(fleet.state(), FleetState::Suspended);
    assert_eq!(fleet.error().as_deref(), Some("the engine is down"));
    assert!(!fleet.wait_until_live(ms(20)));
    engine.set_mode(Mode::Works);
    assert!(fleet.wait_until_live(LONG));
}

#[test]
fn no_panic_is_silent() {
    let engine = Arc::new(Engine::default());
    let cache = cache_of(&engine);
    let (fleet, told) = spawned(&cache, &engine, |it| it.on_told(|_| panic!("a user's")));
    let fleet = fleet.unwrap();
    assert_eq!(told.recv().unwrap(), FleetState::Live);
    engine.set("a", 1);
    assert!(fleet.catch_up(LONG), "of a user's panic nothing follows");
    engine.set_mode(Mode::Panics);
    engine.end_connections();
    assert_eq!(told.recv().unwrap(), FleetState::Suspended);
    while fleet.error().as_deref() != Some("the announcements panicked") {
        sleep(ms(1));
    }
    engine.set_mode(Mode::Works);
    assert!(fleet.wait_until_live(LONG));
}

#[test]
fn a_fleet_that_is_closed_keeps_nothing() {
    let engine = Arc::new(Engine::default());
    let cache = cache_of(&engine);
    let (fleet, told) = spawned(&cache, &engine, |it| it.beat(LONG));
    fleet.unwrap().close();
    let states: Vec<FleetState> = told.iter().collect();
    assert_eq!(states, [FleetState::Live, FleetState::Closed]);
    assert!(cache.is_suspended());
}

/// Readers, writers and a plain client: once all is told, all caches have what the store has.
#[test]
fn at_rest_all_caches_have_what_the_store_has() {
    let engine = Arc::new(Engine::default());
    let caches: Vec<_> = (0..3).map(|_| cache_of(&engine)).collect();
    let fleets: Vec<_> = caches.iter().map(|cache| live(cache, &engine)).collect();
    let keys = ["a", "b", "c", "d"];
    scope(|threads| {
        for (at, cache) in caches.iter().enumerate() {
            let engine = &engine;
            threads.spawn(move || {
                for i in 0..400u32 {
                    let (key, value) = (keys[(i as usize * 7 + at) % 4], i * 10 + at as u32);
                    match (i as usize + at) % 5 {
                        0 => cache.put(key.to_string(), value).unwrap(),
                        1 => engine.set(key, value),
                        _ => drop(get(cache, key)),
                    }
                }
            });
        }
    });
    assert!(fleets.iter().all(|fleet| fleet.catch_up(LONG)));
    for cache in &caches {
        for key in keys {
            let stored = engine.values.lock().unwrap().get(key).copied();
            assert_eq!(get(cache, key), stored, "{key}");
        }
        assert!(cache.agrees());
    }
}

/// A store that writes only what was made from what it has.
#[derive(Default)]
struct Comparing(Mutex<u32>);

#[derive(Debug)]
struct Other;

impl Conflict for Other {
    fn is_conflict(&self) -> bool {
        true
    }
}

impl Loader<(), u32> for Comparing {
    type Error = Other;

    fn load(&self, _key: &()) -> Result<Option<u32>, Other> {
        Ok(Some(*self.0.lock().unwrap()))
    }
}

impl Writer<(), u32> for Comparing {
    type Error = Other;

    fn write(&self, _key: &(), value: &u32) -> Result<(), Other> {
        let mut stored = self.0.lock().unwrap();
        if *value != *stored + 1 {
            return Err(Other);
        }
        *stored = *value;
        Ok(())
    }

    fn delete(&self, _key: &()) -> Result<(), Other> {
        Err(Other)
    }
}

#[test]
fn an_invoke_that_meets_a_conflict_is_made_again() {
    let store = Arc::new(Comparing::default());
    let caches = [(); 2].map(|()| Cache::builder().store(store.clone()).build().unwrap());
    scope(|threads| {
        for cache in &caches {
            threads.spawn(move || {
                for _ in 0..100 {
                    let added = fleet::invoke(cache, &(), 10_000, |entry| {
                        let next = entry.value()?.map_or(1, |it| *it + 1);
                        entry.set(next);
                        Ok(())
                    });
                    added.unwrap();
                }
            });
        }
    });
    assert_eq!(*store.0.lock().unwrap(), 200, "no update is lost");
    assert!(caches[0].get(&()).is_ok());
    *store.0.lock().unwrap() = 500;
    let made = fleet::invoke(&caches[0], &(), 1, |entry| {
        entry.set(201);
        Ok(())
    });
    assert!(matches!(made, Err(Error::Writer(Other, _))));
}

/// Announcements that are never woken, of a cache of bytes.
struct Never;

impl Announcements<Vec<u8>> for Never {
    fn open(&mut self, _patience: Duration) -> Result<(), OpenError> {
        Ok(())
    }

    fn wait(&mut self, time: Duration) -> Result<Vec<Told<Vec<u8>>>, Fault> {
        sleep(time.min(ms(5)));
        Ok(vec![Told::Key(b"a".to_vec())])
    }

    fn probe(&mut self) -> Result<(), Fault> {
        Ok(())
    }

    fn is_answered(&self) -> bool {
        true
    }

    fn close(&mut self) {}
}

#[test]
fn a_cache_of_bytes_listens_too() {
    let cache = Arc::new(BytesCache::builder().build().unwrap());
    let fleet = Fleet::spawn(cache.clone(), Never).unwrap();
    cache.put(b"a", b"1").unwrap();
    cache.put(b"b", b"2").unwrap();
    assert!(fleet.catch_up(LONG));
    assert_eq!(cache.get(b"a").unwrap(), None);
    assert_eq!(cache.get(b"b").unwrap().as_deref(), Some(&b"2"[..]));
    drop(fleet);
    assert!(cache.is_suspended());
}
