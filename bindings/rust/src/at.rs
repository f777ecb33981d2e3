//! Where a call has failed: at which key, of which cache.
use std::fmt::{self, Debug, Write};
use std::sync::Arc;

/// How many characters of a key a text has.
const KEY_MAX: usize = 80;

/// At which key a call has failed, and of which cache, if that has a [name](crate::Builder::name).
#[derive(Clone, Default)]
pub struct At(pub(crate) Option<Box<Place>>);

#[derive(Clone)]
pub(crate) struct Place {
    cache: Arc<str>,
    key: Option<String>,
}

impl At {
    /// The key, as its `Debug` writes it, cut to 80 characters. None also of a failure that is of no single key.
    pub fn key(&self) -> Option<&str> {
        self.0.as_ref()?.key.as_deref()
    }

    /// The cache's name.
    pub fn cache(&self) -> Option<&str> {
        Some(&self.0.as_ref()?.cache)
    }
}

/// `key "home", cache pages`; nothing, if the cache has no name.
impl fmt::Display for At {
    fn fmt(&self, f: &mut fmt::Formatter<'_>) -> fmt::Result {
        if let Some(key) = self.key() {
            write!(f, "key {key}, ")?;
        }
        self.cache()
            .map_or(Ok(()), |cache| write!(f, "cache {cache}"))
    }
}

impl Debug for At {
    fn fmt(&self, f: &mut fmt::Formatter<'_>) -> fmt::Result {
        f.write_str("At")?;
        self.0.as_ref().map_or(Ok(()), |_| write!(f, "({self})"))
    }
}

/// The name of a cache, if it has one, and what shows its keys.
pub(crate) struct Name<K: ?Sized>(Option<(Arc<str>, fn(&K) -> String)>);

impl<K: ?Sized> Name<K> {
    pub(crate) const NONE: Name<K> = Name(None);

    pub(crate) fn new(cache: impl Into<Arc<str>>, show: fn(&K) -> String) -> Name<K> {
        Name(Some((cache.into(), show)))
    }

    /// Where a call has failed. Nothing is shown before that, and a key with no lock held, since its `Debug` is the user's.
    #[cold]
    pub(crate) fn at(&self, key: Option<&K>) -> At {
        At(self.0.as_ref().map(|(cache, show)| {
            Box::new(Place {
                cache: cache.clone(),
                key: key.map(show),
            })
        }))
    }
}

impl<K: ?Sized> Clone for Name<K> {
    fn clone(&self) -> Name<K> {
        Name(self.0.clone())
    }
}

/// Takes text up to so many characters, and then fails, so that a long key isn't formatted to its end.
struct Cut {
    text: String,
    left: usize,
}

impl Write for Cut {
    fn write_str(&mut self, part: &str) -> fmt::Result {
        let end = part.char_indices().nth(self.left);
        self.text
            .push_str(&part[..end.map_or(part.len(), |it| it.0)]);
        match end {
            Some(_) => self.left = 0,
            None => self.left -= part.chars().count(),
        }
        end.map_or(Ok(()), |_| Err(fmt::Error))
    }
}

/// A key's `Debug`, cut.
pub(crate) fn shown<K: Debug + ?Sized>(key: &K) -> String {
    let mut cut = Cut {
        text: String::new(),
        left: KEY_MAX,
    };
    if write!(cut, "{key:?}").is_err() {
        cut.text.push_str("..");
    }
    cut.text
}
