//! Keeps caches true to a table of PostgreSQL, 14 or later, whoever changes it: [`PostgresAnnouncements`] for a
//! [`Fleet`](cadwrelch::fleet::Fleet).
//!
//! ```no_run
//! use cadwrelch::{Cache, fleet::Fleet};
//! use cadwrelch_fleet_postgres::{PostgresAnnouncements, tokio_postgres::NoTls};
//! use std::sync::Arc;
//!
//! # fn main() -> Result<(), Box<dyn std::error::Error + Send + Sync>> {
//! let cache = Arc::new(Cache::<u32, String>::builder().build()?); // with .store(store), whose table this is
//! let config = "host=/run/postgresql user=shop dbname=shop".parse()?;
//! let changes = PostgresAnnouncements::new(config, NoTls, "pages", |key| key.parse().ok());
//! println!("{}", changes.triggers()); // to be executed once, by who owns the table
//! let fleet = Fleet::spawn(cache.clone(), changes)?;
//! # Ok(())
//! # }
//! ```
#![deny(missing_docs, missing_debug_implementations)]

use cadwrelch::fleet::{Announcements, Fault, OpenError, Told};
use std::future::{Future, poll_fn};
use std::hash::{BuildHasher, RandomState};
use std::pin::{Pin, pin};
use std::sync::Arc;
use std::task::{Context, Poll};
use std::time::Duration;
use std::{fmt, mem, panic, thread};
use tokio::runtime::{Builder, Runtime};
use tokio::sync::Notify;
use tokio::time::{sleep, timeout};
pub use tokio_postgres;
use tokio_postgres::error::Error;
use tokio_postgres::tls::{MakeTlsConnect, TlsStream};
use tokio_postgres::{AsyncMessage, Client, Config, Connection, Notification, Socket};
use tokio_postgres::{SimpleQueryMessage, SimpleQueryRow};

/// A statement that changes more rows is announced as a change of all.
const KEYS_MAX: usize = 1000;
const CHANNEL_MAX: usize = 63;
/// If an instance doesn't read for so long, the server ends its connection, and keeps announcements no longer.
const UNREAD_MILLIS: u32 = 30_000;
/// A connection may take so long to make, also if the patience is shorter.
const CONNECTING_MIN: Duration = Duration::from_secs(2);

/// What a table announces, by NOTIFY of its [triggers](PostgresAnnouncements::triggers) as a change is committed: own writes, too, so a
/// key is loaded once more after each.
///
/// It listens on a connection of its own to the primary, which must not go through a pooler of transactions, with a runtime of `tokio`
/// on the fleet's thread; in `pg_stat_activity` it is `cadwrelch-fleet`. Whoever makes the fleet, drops it, or uses the cache may be in
/// another runtime, or in none.
pub struct PostgresAnnouncements<K, T: MakeTlsConnect<Socket>> {
    config: Config,
    tls: T,
    table: String,
    key_column: String,
    parse: Box<dyn Fn(&str) -> Option<K> + Send>,
    woken: Arc<Notify>,
    open: Option<(Runtime, Line<T::Stream>)>,
}

impl<K, T: MakeTlsConnect<Socket>> fmt::Debug for PostgresAnnouncements<K, T> {
    fn fmt(&self, f: &mut fmt::Formatter<'_>) -> fmt::Result {
        let mut shown = f.debug_struct("PostgresAnnouncements");
        shown.field("table", &self.table).finish_non_exhaustive()
    }
}

impl<K, T: MakeTlsConnect<Socket>> PostgresAnnouncements<K, T> {
    /// Those of a table, or of a schema and a table with a dot between them, whose keys are in the column `key`. `parse` makes a key of
    /// the text of one; if it makes none, all keys count as changed. Nothing is connected yet.
    pub fn new(
        config: Config,
        tls: T,
        table: impl Into<String>,
        parse: impl Fn(&str) -> Option<K> + Send + 'static,
    ) -> Self {
        PostgresAnnouncements {
            config,
            tls,
            table: table.into(),
            key_column: "key".to_string(),
            parse: Box::new(parse),
            woken: Arc::default(),
            open: None,
        }
    }

    /// The column of the keys, in place of `key`.
    pub fn key_column(mut self, name: impl Into<String>) -> Self {
        self.key_column = name.into();
        self
    }

    /// The SQL that makes the triggers of the table, or makes them anew, as those of `cadwrelch.fleet` in Python and of
    /// `cadwrelch-fleet.jar`: one table may have instances in all three.
    pub fn triggers(&self) -> String {
        let function = format!("cadwrelch_announce_{}", self.table.replace('.', "_"));
        include_str!("triggers.sql")
            .replace("{table}", &self.quoted_table())
            .replace("{key}", &quoted(&self.key_column))
            .replace("{function}", &quoted(&function))
            .replace("{channel}", &literal(&self.channel()))
            .replace("{limit}", &KEYS_MAX.to_string())
    }

    fn channel(&self) -> String {
        format!("cadwrelch_{}", self.table)
    }

    fn quoted_table(&self) -> String {
        let parts = self.table.split('.').map(quoted);
        parts.collect::<Vec<_>>().join(".")
    }
}

fn quoted(name: &str) -> String {
    format!("\"{}\"", name.replace('"', "\"\""))
}

fn literal(text: &str) -> String {
    format!("'{}'", text.replace('\'', "''"))
}

fn wrong<T>(text: impl Into<Fault>) -> Result<T, OpenError> {
    Err(OpenError::Setup(text.into()))
}

impl<K, T: MakeTlsConnect<Socket> + Clone> PostgresAnnouncements<K, T> {
    async fn connect(&self) -> Result<Line<T::Stream>, Fault> {
        let (client, connection) = self.config.connect(self.tls.clone()).await?;
        Ok(Line {
            client: Arc::new(client),
            connection,
            heard: Vec::new(),
            probe: None,
        })
    }

    /// Connects, looks whether all is as it has to be, and listens. What another connection announces is to come here then.
    async fn listen(&self, own: &str) -> Result<Line<T::Stream>, OpenError> {
        let mut line = self.connect().await?;
        self.check_table(&mut line).await?;
        self.check_key(&mut line).await?;
        let listen = format!(
            "set application_name = 'cadwrelch-fleet'; set tcp_user_timeout = {UNREAD_MILLIS};
            listen {}; listen {own}",
            quoted(&self.channel())
        );
        line.ask(&listen).await?;
        self.connect().await?.ask(&format!("notify {own}")).await?;
        Ok(line)
    }

    async fn check_table(&self, line: &mut Line<T::Stream>) -> Result<(), OpenError> {
        let (name, key, channel) = (&self.table, &self.key_column, self.channel());
        let query = format!(
            "select not pg_is_in_recovery(), it is not null, exists (select from pg_attribute
                where attrelid = it and attname = {} and attnum > 0 and not attisdropped),
            (select count(*) = 4 from pg_trigger where tgrelid = it and tgenabled = 'A' and tgname
                in ('cadwrelch_insert', 'cadwrelch_update', 'cadwrelch_delete', 'cadwrelch_truncate')),
            has_any_column_privilege(it, 'select'), octet_length({}) <= {CHANNEL_MAX}
            from to_regclass({}) it",
            literal(key),
            literal(&channel),
            literal(&self.quoted_table())
        );
        let asked = line.ask(&query).await?;
        let row = asked.ok_or_else(|| Fault::from("a query has no answer"))?;
        wrong(match (0..row.len()).find(|at| row.get(*at) != Some("t")) {
            None => return Ok(()),
            Some(0) => "the database is a standby, which announces nothing".to_string(),
            Some(1) => format!("there is no table {name}: its schema goes before it, with a dot"),
            Some(2) => format!("the table {name} has no column {key} for its keys"),
            Some(3) => format!("the table {name} announces nothing: triggers() has what it lacks"),
            Some(4) => format!("the user may not read the table {name}: grant select on it"),
            Some(_) => format!("{channel} is too long a name of a channel"),
        })
    }

    /// Whether a key that is there can be read.
    async fn check_key(&self, line: &mut Line<T::Stream>) -> Result<(), OpenError> {
        let (key, table) = (quoted(&self.key_column), self.quoted_table());
        let query = format!("select {key}::text from {table} limit 1");
        let row = line.ask(&query).await?;
        let text = row.as_ref().and_then(|row| row.get(0));
        match text.filter(|text| (self.parse)(text).is_none()) {
            Some(text) => wrong(format!("of {text:?}, a key of {table}, parse makes none")),
            None => Ok(()),
        }
    }

    async fn open_in_time(&self, patience: Duration) -> Result<Line<T::Stream>, OpenError> {
        let own = format!("cadwrelch_wake_{:016x}", RandomState::new().hash_one(()));
        let limit = patience.max(CONNECTING_MIN);
        let listening = timeout(limit, self.listen(&own)).await;
        let mut line = listening.map_err(|_| Fault::from("no connection in time"))??;
        let told = async {
            while !line.heard.drain(..).any(|it| it.channel() == own) {
                line.wait(limit, &self.woken).await?;
            }
            Ok(line)
        };
        let pooled = "nothing comes to the connection that listens: go round the pooler before it";
        let told = timeout(limit, told).await;
        told.unwrap_or_else(|_| wrong(pooled))
    }
}

impl<K, T> Announcements<K> for PostgresAnnouncements<K, T>
where
    T: MakeTlsConnect<Socket> + Clone + Send,
    T::Stream: Send,
{
    fn open(&mut self, patience: Duration) -> Result<(), OpenError> {
        self.close();
        let it = &mut *self;
        let open = move || {
            let built = Builder::new_current_thread().enable_all().build();
            let runtime = built.map_err(Fault::from)?;
            let line = runtime.block_on(it.open_in_time(patience))?;
            Ok::<_, OpenError>((runtime, line))
        };
        // That of whoever makes the fleet may be in a runtime, and a thread can't be in two.
        let opened = thread::scope(|threads| threads.spawn(open).join());
        self.open = Some(opened.unwrap_or_else(|panic| panic::resume_unwind(panic))?);
        Ok(())
    }

    fn wait(&mut self, time: Duration) -> Result<Vec<Told<K>>, Fault> {
        let (runtime, line) = self.open.as_mut().ok_or("there is no connection")?;
        runtime.block_on(line.wait(time, &self.woken))?;
        let (heard, channel) = (mem::take(&mut line.heard), self.channel());
        let heard = heard.iter().filter(|it| it.channel() == channel);
        // `ORIGIN KEY`, or `*`.
        let keys = heard.map(|it| (self.parse)(it.payload().split_once(' ')?.1));
        Ok(keys.map(|key| key.map_or(Told::All, Told::Key)).collect())
    }

    fn probe(&mut self) -> Result<(), Fault> {
        let (_, line) = self.open.as_mut().ok_or("there is no connection")?;
        let client = line.client.clone();
        // It leaves with the next wait.
        line.probe = Some(Box::pin(async move { client.batch_execute("").await }));
        Ok(())
    }

    fn is_answered(&self) -> bool {
        matches!(&self.open, Some((_, line)) if line.probe.is_none())
    }

    fn close(&mut self) {
        if let Some((runtime, line)) = self.open.take() {
            drop(line);
            runtime.shutdown_background();
        }
    }

    fn waker(&self) -> Box<dyn Fn() + Send + Sync> {
        let woken = self.woken.clone();
        Box::new(move || woken.notify_one())
    }
}

/// A connection, what was heard by it, and the query that asks whether that was all.
struct Line<S> {
    client: Arc<Client>,
    connection: Connection<Socket, S>,
    heard: Vec<Notification>,
    probe: Option<Pin<Box<dyn Future<Output = Result<(), Error>> + Send>>>,
}

impl<S: TlsStream + Unpin> Line<S> {
    /// Takes all that has come.
    fn hear(&mut self, context: &mut Context<'_>) -> Result<(), Fault> {
        while let Poll::Ready(message) = self.connection.poll_message(context) {
            let message = message.ok_or("the connection has ended")??;
            if let AsyncMessage::Notification(told) = message {
                self.heard.push(told);
            }
        }
        Ok(())
    }

    /// The first row that a query answers, as texts.
    async fn ask(&mut self, query: &str) -> Result<Option<SimpleQueryRow>, Fault> {
        let client = self.client.clone();
        let mut asked = pin!(client.simple_query(query));
        let answered = poll_fn(|context| {
            self.hear(context)?;
            asked.as_mut().poll(context).map_err(Fault::from)
        });
        let mut messages = answered.await?.into_iter();
        Ok(messages.find_map(|message| match message {
            SimpleQueryMessage::Row(row) => Some(row),
            _ => None,
        }))
    }

    /// Waits until something is heard or answered, but no longer than this time, or until it is woken.
    async fn wait(&mut self, time: Duration, woken: &Notify) -> Result<(), Fault> {
        let (mut woken, mut over) = (pin!(woken.notified()), pin!(sleep(time)));
        let wait = poll_fn(|context| {
            self.hear(context)?;
            let answer = self.probe.as_mut().map(|it| it.as_mut().poll(context));
            if let Some(Poll::Ready(answer)) = answer {
                self.probe = None;
                return Poll::Ready(answer.map_err(Fault::from));
            }
            let is_woken = woken.as_mut().poll(context).is_ready();
            match is_woken || !self.heard.is_empty() || over.as_mut().poll(context).is_ready() {
                true => Poll::Ready(Ok(())),
                false => Poll::Pending,
            }
        });
        wait.await
    }
}
