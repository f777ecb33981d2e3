//! Fleets before a PostgreSQL, which the test starts in a temporary folder with a Unix socket. If there is none, it says so.
use cadwrelch::fleet::{Fleet, FleetState};
use cadwrelch::{Cache, NoWriter};
use cadwrelch_fleet_postgres::{PostgresAnnouncements, tokio_postgres};
use std::io::{self, Read, Write};
use std::os::unix::fs::MetadataExt;
use std::os::unix::net::{UnixListener, UnixStream};
use std::path::{Path, PathBuf};
use std::process::{Command, Stdio};
use std::sync::Arc;
use std::sync::atomic::{AtomicBool, Ordering::SeqCst};
use std::sync::mpsc::{Receiver, channel};
use std::time::Duration;
use std::{env, fs};
use tokio::runtime::{Builder, Runtime};
use tokio_postgres::{Config, NoTls, SimpleQueryMessage};

/// Longer than anything takes.
const LONG: Duration = Duration::from_secs(60);
const SHORT: Duration = Duration::from_millis(20);

const TERMINATE: &str = "select pg_terminate_backend(pid) from pg_stat_activity where application_name = 'cadwrelch-fleet'";

/// A server.
struct Engine {
    folder: PathBuf,
    programs: PathBuf,
}

fn is_root() -> bool {
    fs::metadata("/proc/self").is_ok_and(|it| it.uid() == 0)
}

/// Where initdb and pg_ctl are, or why there is no engine.
fn programs() -> Result<PathBuf, &'static str> {
    let versions = fs::read_dir("/usr/lib/postgresql").into_iter().flatten();
    let debian = versions.flatten().map(|it| it.path().join("bin"));
    let others = env::var_os("PATH").unwrap_or_default();
    let mut found: Vec<PathBuf> = debian.chain(env::split_paths(&others)).collect();
    found.retain(|it| it.join("initdb").exists() && it.join("pg_ctl").exists());
    if is_root() && !Path::new("/usr/sbin/runuser").exists() && !Path::new("/sbin/runuser").exists()
    {
        return Err("no runuser");
    }
    found.pop().ok_or("no initdb and pg_ctl")
}

impl Engine {
    fn start() -> Result<Engine, &'static str> {
        let folder = env::temp_dir().join(format!("fleet{}", std::process::id()));
        let engine = Engine {
            programs: programs()?,
            folder,
        };
        fs::create_dir(&engine.folder).unwrap();
        if is_root() {
            run(Command::new("chown").arg("postgres").arg(&engine.folder));
        }
        engine.run(
            "initdb",
            &[
                "-A",
                "trust",
                "-U",
                "fleet",
                "-E",
                "UTF8",
                "--locale=C",
                "-N",
            ],
        );
        engine.begin();
        Ok(engine)
    }

    fn begin(&self) {
        let folder = self.folder.display();
        let (log, options) = (
            format!("{folder}/log"),
            format!("-k {folder} -c listen_addresses='' -c fsync=off"),
        );
        self.run("pg_ctl", &["-l", &log, "-w", "-o", &options, "start"]);
    }

    fn stop(&self, mode: &str) {
        self.run("pg_ctl", &["-m", mode, "-w", "stop"]);
    }

    /// PostgreSQL refuses root.
    fn run(&self, program: &str, arguments: &[&str]) {
        let program = self.programs.join(program);
        let mut command = Command::new(if is_root() {
            "runuser".as_ref()
        } else {
            program.as_os_str()
        });
        if is_root() {
            command.args(["-u", "postgres", "--"]).arg(&program);
        }
        // An engine has no sanitizer's runtime.
        command.env_remove("LD_PRELOAD").current_dir(&self.folder);
        run(command
            .arg("-D")
            .arg(self.folder.join("data"))
            .args(arguments));
    }

    fn config(&self) -> Config {
        let mut config = Config::new();
        config
            .host_path(&self.folder)
            .user("fleet")
            .dbname("postgres");
        config
    }

    /// What a plain client is answered, row by row.
    fn sql(&self, query: &str) -> Vec<String> {
        try_sql(&self.config(), query).unwrap()
    }

    fn announcements(&self, table: &str) -> PostgresAnnouncements<String, NoTls> {
        announcements(self.config(), table)
    }
}

impl Drop for Engine {
    fn drop(&mut self) {
        self.stop("immediate");
        fs::remove_dir_all(&self.folder).unwrap();
    }
}

fn run(command: &mut Command) {
    let ended = command.stdin(Stdio::null()).stdout(Stdio::null()).status();
    assert!(ended.unwrap().success(), "{command:?}");
}

fn announcements(config: Config, table: &str) -> PostgresAnnouncements<String, NoTls> {
    PostgresAnnouncements::new(config, NoTls, table, |key| Some(key.to_string()))
}

fn runtime() -> Runtime {
    Builder::new_current_thread().enable_all().build().unwrap()
}

fn try_sql(config: &Config, query: &str) -> Result<Vec<String>, tokio_postgres::Error> {
    try_all(config, &[query])
}

/// The same of several, each of which is a transaction, by one connection.
fn try_all(config: &Config, queries: &[&str]) -> Result<Vec<String>, tokio_postgres::Error> {
    let row = |message| match message {
        SimpleQueryMessage::Row(row) => row.get(0).map(str::to_string),
        _ => None,
    };
    let config = config.clone();
    runtime().block_on(async move {
        let (client, connection) = config.connect(NoTls).await?;
        tokio::spawn(connection);
        let mut rows = Vec::new();
        for query in queries {
            rows.extend(
                client
                    .simple_query(query)
                    .await?
                    .into_iter()
                    .filter_map(row),
            );
        }
        Ok(rows)
    })
}

type Load = Box<dyn Fn(&String) -> Result<Option<String>, String> + Send + Sync>;
type Texts = Cache<String, String, Load, NoWriter>;

/// A cache that reads a table.
fn cache_of(engine: &Engine, table: &str) -> Arc<Texts> {
    let (config, table) = (engine.config(), table.to_string());
    let load: Load = Box::new(move |key| {
        let query = format!("select value from {table} where key::text = '{key}'");
        let found = std::thread::scope(|it| it.spawn(|| try_sql(&config, &query)).join());
        Ok(found.unwrap().map_err(|error| error.to_string())?.pop())
    });
    Arc::new(Cache::builder().loader(load).build().unwrap())
}

fn get(cache: &Texts, key: &str) -> Option<String> {
    cache.get(key).unwrap().map(|it| it.to_string())
}

fn is_cached(cache: &Texts, key: &str) -> bool {
    cache.contains_key(key).unwrap()
}

/// A table with triggers, whose name has to be quoted.
fn make_table(engine: &Engine, name: &str, key: &str) {
    let quoted = name.replace('"', "\"\"");
    engine.sql(&format!(
        "create table \"{quoted}\" (key {key} primary key, value text not null)"
    ));
    engine.sql(&engine.announcements(name).triggers());
}

/// A fleet, and the states that it has told.
fn spawned(
    cache: &Arc<Texts>,
    engine: &Engine,
    table: &str,
    patience: Duration,
) -> (Fleet, Receiver<FleetState>) {
    let (tell, told) = channel();
    let builder = Fleet::builder(cache.clone(), engine.announcements(table))
        .beat(SHORT)
        .patience(patience)
        .retry(SHORT)
        .on_state(move |state| tell.send(state).unwrap_or(()));
    (builder.spawn().unwrap(), told)
}

fn what_anybody_changes_is_forgotten(engine: &Engine) {
    make_table(engine, "pages", "text");
    let caches = [(); 2].map(|()| cache_of(engine, "pages"));
    let fleets = caches
        .each_ref()
        .map(|it| spawned(it, engine, "pages", LONG).0);
    let changes = [
        (
            "insert into pages values ('a', '1'), ('b', '1')",
            Some("1"),
            "1",
        ),
        (
            "update pages set value = '2' where key = 'a'",
            Some("2"),
            "1",
        ),
        (
            "insert into pages values ('a', '3') on conflict (key) do update set value = '3'",
            Some("3"),
            "1",
        ),
        ("update pages set key = 'c' where key = 'a'", None, "1"),
        ("update pages set key = 'a' where key = 'c'", Some("3"), "1"),
        (
            "begin; update pages set value = '4' where key = 'a'; commit",
            Some("4"),
            "1",
        ),
        (
            "set session_replication_role = replica; update pages set value = '5' where key = 'a'",
            Some("5"),
            "1",
        ),
        ("delete from pages where key = 'a'", None, "1"),
    ];
    for (change, a, b) in changes {
        engine.sql(change);
        for (cache, fleet) in caches.iter().zip(&fleets) {
            assert!(fleet.catch_up(LONG), "{change}");
            assert_eq!(
                (get(cache, "a").as_deref(), get(cache, "b").as_deref()),
                (a, Some(b)),
                "{change}"
            );
        }
    }
    assert!(
        is_cached(&caches[0], "b"),
        "what nobody has changed is kept"
    );
    engine.sql("begin; delete from pages; rollback");
    assert!(
        fleets[0].catch_up(LONG) && is_cached(&caches[0], "b"),
        "it wasn't committed"
    );
    let before = fleets[0].stats();
    assert_eq!((before.all, before.lost, before.connections), (0, 0, 1));
    engine.sql("truncate pages");
    assert!(fleets[0].catch_up(LONG) && !is_cached(&caches[0], "b"));
    engine.sql("insert into pages select i::text, 'many' from generate_series(1, 1001) i");
    assert!(fleets[0].catch_up(LONG));
    assert_eq!(
        (fleets[0].stats().all, fleets[0].stats().told),
        (2, before.told)
    );
}

fn keys_are_of_any_type(engine: &Engine) {
    make_table(engine, "any'\"thing", "integer");
    let cache = Arc::new(Cache::<u8, u8>::builder().build().unwrap());
    let changes = PostgresAnnouncements::new(engine.config(), NoTls, "any'\"thing", |key| {
        key.parse().ok()
    });
    let fleet = Fleet::spawn(cache.clone(), changes).unwrap();
    cache.put_all([(1, 1), (2, 2)]).unwrap();
    engine.sql("insert into \"any'\"\"thing\" values (1, '')");
    assert!(fleet.catch_up(LONG));
    assert_eq!(*cache.keys().unwrap(), [Arc::new(2)]);
    engine.sql("insert into \"any'\"\"thing\" values (1000, '')");
    assert!(fleet.catch_up(LONG));
    assert_eq!(
        (cache.len().unwrap(), fleet.stats().all),
        (0, 1),
        "that is no key"
    );
}

fn what_has_to_be_is_looked_for(engine: &Engine) {
    make_table(engine, "wrong", "text");
    engine.sql("insert into wrong values ('a', '1'); create role stranger login");
    let refused = |changes: PostgresAnnouncements<String, NoTls>| {
        let cache = cache_of(engine, "wrong");
        let error = Fleet::spawn(cache.clone(), changes)
            .unwrap_err()
            .to_string();
        assert!(cache.is_suspended());
        error
    };
    let long = "n".repeat(60);
    let table = |name: &str| refused(engine.announcements(name));
    assert!(table("nowhere").starts_with("there is no table nowhere:"));
    assert!(table("nowhere.wrong").starts_with("there is no table nowhere.wrong"));
    assert!(table(&long).starts_with("there is no table n"));
    let column = refused(engine.announcements("wrong").key_column("name"));
    assert_eq!(column, "the table wrong has no column name for its keys");
    let none = PostgresAnnouncements::new(engine.config(), NoTls, "wrong", |_| None);
    assert!(refused(none).starts_with("of \"a\", a key of \"wrong\", parse makes none"));
    let mut stranger = engine.config();
    stranger.user("stranger");
    assert!(
        refused(announcements(stranger, "wrong"))
            .starts_with("the user may not read the table wrong")
    );
    engine.sql("alter table wrong disable trigger cadwrelch_update");
    assert!(table("wrong").starts_with("the table wrong announces nothing"));
    engine.sql(&format!("create table {} (key text, value text)", long));
    engine.sql(&engine.announcements(&long).triggers());
    assert!(table(&long).ends_with(" is too long a name of a channel"));
}

fn a_connection_that_ends_is_made_anew(engine: &Engine) {
    make_table(engine, "ended", "text");
    engine.sql("insert into ended values ('a', '1')");
    let cache = cache_of(engine, "ended");
    let (fleet, told) = spawned(&cache, engine, "ended", LONG);
    assert_eq!(get(&cache, "a").as_deref(), Some("1"));
    engine.sql(
        "alter table ended disable trigger cadwrelch_update; update ended set value = '2';
        alter table ended enable always trigger cadwrelch_update",
    );
    assert!(
        fleet.catch_up(LONG) && is_cached(&cache, "a"),
        "nothing was told"
    );
    engine.sql(TERMINATE);
    let states: Vec<FleetState> = (0..3).map(|_| told.recv_timeout(LONG).unwrap()).collect();
    assert_eq!(
        states,
        [FleetState::Live, FleetState::Suspended, FleetState::Live]
    );
    assert_eq!(
        get(&cache, "a").as_deref(),
        Some("2"),
        "it began with nothing"
    );
    assert_eq!((fleet.stats().connections, fleet.stats().lost), (2, 1));
}

fn a_silent_connection_is_lost(engine: &Engine) {
    make_table(engine, "silent", "text");
    engine.sql("insert into silent values ('a', '1')");
    let cache = cache_of(engine, "silent");
    let (fleet, told) = spawned(&cache, engine, "silent", 50 * SHORT);
    assert_eq!(get(&cache, "a").as_deref(), Some("1"));
    let pids =
        engine.sql("select pid from pg_stat_activity where application_name = 'cadwrelch-fleet'");
    let [pid] = &pids[..] else {
        panic!("one listens: {pids:?}")
    };
    run(Command::new("kill").args(["-STOP", pid]));
    engine.sql("update silent set value = '2'");
    let states: Vec<FleetState> = (0..3).map(|_| told.recv_timeout(LONG).unwrap()).collect();
    run(Command::new("kill").args(["-CONT", pid]));
    assert_eq!(
        states,
        [FleetState::Live, FleetState::Suspended, FleetState::Live]
    );
    assert_eq!(get(&cache, "a").as_deref(), Some("2"));
    assert!(fleet.stats().lost > 0);
}

/// Values that count their changes, made by a plain client while others read: nobody sees one go back, and at rest all have the last
/// ones, but for the control, a cache without a fleet.
fn at_rest_all_have_what_the_table_has(engine: &Engine) {
    make_table(engine, "race", "text");
    engine.sql("insert into race values ('a', '0'), ('b', '0')");
    let caches = [(); 3].map(|()| cache_of(engine, "race"));
    let [first, second, control] = caches.each_ref();
    let fleets = [first, second].map(|it| spawned(it, engine, "race", LONG).0);
    let count = |cache: &Texts, key| get(cache, key).unwrap().parse::<u32>().unwrap();
    assert_eq!((count(control, "a"), count(control, "b")), (0, 0));
    let is_over = AtomicBool::new(false);
    std::thread::scope(|threads| {
        for cache in [first, first, second, second] {
            threads.spawn(|| {
                let mut seen = [0; 2];
                while !is_over.load(SeqCst) {
                    for (seen, key) in seen.iter_mut().zip(["a", "b"]) {
                        let count = count(cache, key);
                        assert!(*seen <= count, "{key}: {count} after {seen}");
                        *seen = count;
                    }
                }
            });
        }
        let change = ["a", "b"]
            .map(|key| format!("update race set value = value::int + 1 where key = '{key}'"));
        let changes: Vec<&str> = (0..400).map(|at| change[at % 2].as_str()).collect();
        let changed = try_all(&engine.config(), &changes);
        is_over.store(true, SeqCst);
        changed.unwrap();
    });
    for (cache, fleet) in [first, second].into_iter().zip(&fleets) {
        assert!(fleet.catch_up(LONG));
        assert_eq!((count(cache, "a"), count(cache, "b")), (200, 200));
        assert_eq!((fleet.stats().told, fleet.stats().lost), (400, 0));
        assert!(cache.agrees());
    }
    assert_eq!((count(control, "a"), count(control, "b")), (0, 0));
}

/// Whoever makes a fleet, uses its cache, and drops both, may be in a runtime of his own.
fn it_is_used_within_a_runtime(engine: &Engine) {
    make_table(engine, "tasks", "text");
    runtime().block_on(async {
        let cache = cache_of(engine, "tasks");
        let fleet = Fleet::spawn(cache.clone(), engine.announcements("tasks")).unwrap();
        assert!(fleet.catch_up(LONG));
        assert_eq!(get(&cache, "a"), None);
        drop(fleet);
        assert!(Fleet::spawn(cache.clone(), engine.announcements("nowhere")).is_err());
        let mut down = engine.config();
        down.dbname("nowhere");
        let fleet = Fleet::spawn(cache, announcements(down, "tasks")).unwrap();
        assert!(
            fleet
                .error()
                .unwrap()
                .contains("database \"nowhere\" does not exist")
        );
        assert_eq!(fleet.state(), FleetState::Suspended);
    });
}

/// Passes on what a server says, but for what it announces.
fn swallow(server: UnixStream, mut client: UnixStream) -> io::Result<()> {
    let mut server = io::BufReader::new(server);
    loop {
        let mut message = vec![0; 5];
        server.read_exact(&mut message)?;
        let length = u32::from_be_bytes(message[1..].try_into().unwrap());
        message.resize(1 + length as usize, 0);
        server.read_exact(&mut message[5..])?;
        if message[0] != b'A' {
            client.write_all(&message)?;
        }
    }
}

fn a_pooler_of_transactions_is_noticed(engine: &Engine) {
    make_table(engine, "pooled", "text");
    let folder = engine.folder.join("pooler");
    fs::create_dir(&folder).unwrap();
    let pooler = UnixListener::bind(folder.join(".s.PGSQL.5432")).unwrap();
    let server = engine.folder.join(".s.PGSQL.5432");
    std::thread::spawn(move || {
        for client in pooler.incoming() {
            let (client, server) = (client.unwrap(), UnixStream::connect(&server).unwrap());
            let (mut asks, mut hears) = (client.try_clone().unwrap(), server.try_clone().unwrap());
            std::thread::spawn(move || io::copy(&mut asks, &mut hears));
            std::thread::spawn(move || swallow(server, client));
        }
    });
    let mut config = Config::new();
    config.host_path(&folder).user("fleet").dbname("postgres");
    let cache = cache_of(engine, "pooled");
    let refused = Fleet::spawn(cache.clone(), announcements(config, "pooled")).unwrap_err();
    assert!(
        refused.to_string().contains("go round the pooler"),
        "{refused}"
    );
    assert!(cache.is_suspended());
}

/// The last of all: it makes the server a standby.
fn a_standby_is_noticed(engine: &Engine) {
    engine.stop("fast");
    fs::write(engine.folder.join("data/standby.signal"), "").unwrap();
    engine.begin();
    let refused = Fleet::spawn(cache_of(engine, "pages"), engine.announcements("pages"));
    assert!(
        refused
            .unwrap_err()
            .to_string()
            .starts_with("the database is a standby")
    );
}

#[test]
fn fleets_before_an_engine() {
    let engine = match Engine::start() {
        Ok(engine) => engine,
        Err(why) => return println!("left out: Postgres ({why})"),
    };
    what_anybody_changes_is_forgotten(&engine);
    keys_are_of_any_type(&engine);
    what_has_to_be_is_looked_for(&engine);
    a_connection_that_ends_is_made_anew(&engine);
    a_silent_connection_is_lost(&engine);
    at_rest_all_have_what_the_table_has(&engine);
    it_is_used_within_a_runtime(&engine);
    a_pooler_of_transactions_is_noticed(&engine);
    a_standby_is_noticed(&engine);
}

/// One table may have instances in all languages: each has its triggers from the same text.
#[test]
fn the_triggers_are_those_of_the_others() {
    let own = include_str!("../src/triggers.sql");
    let python =
        Path::new(env!("CARGO_MANIFEST_DIR")).join("../../python/cadwrelch/fleet/triggers.sql");
    match fs::read_to_string(python) {
        Ok(text) => assert_eq!(text, own),
        Err(_) => println!("Python's aren't here"),
    }
}
