//! How large a cache is: the options of a builder, and what they refuse.
use cadwrelch::{BuildError, Builder, BytesCache, Cache};

type Numbers = Builder<u32, u32>;

fn cached(cache: &Cache<u32, u32>, keys: u32) -> usize {
    for key in 0..keys {
        cache.put(key, key).unwrap();
    }
    cache.len().unwrap()
}

/// The capacity is the whole cache's, and a small cache has exactly that many entries.
#[test]
fn a_small_cache_has_exactly_its_capacity() {
    for capacity in [1, 3, 100, 511] {
        let cache = Cache::builder().capacity(capacity).build().unwrap();
        assert_eq!(cached(&cache, 600), capacity);
        let bytes = BytesCache::builder().capacity(capacity).build().unwrap();
        for key in 0..600u32 {
            bytes.put(&key.to_le_bytes(), b"").unwrap();
        }
        assert_eq!(bytes.entries().unwrap().len(), capacity);
    }
}

#[test]
fn a_capacity_is_dealt_to_stripes() {
    for (stripes, capacity) in [(2, 512), (16, 1000), (3, 10)] {
        let built = Cache::builder().stripes(stripes).capacity(capacity);
        assert_eq!(cached(&built.build().unwrap(), 4000), capacity);
    }
}

/// Most of so many keys fit, however they are numbered.
#[test]
fn keys_that_are_multiples_fill_all_stripes() {
    for step in [1, 2, 10, 16, 1000, 4096] {
        let cache = Cache::<u32, ()>::builder().stripes(16).capacity(4096);
        let cache = cache.build().unwrap();
        for key in 0..3000 {
            cache.put(key * step, ()).unwrap();
        }
        assert!(cache.len().unwrap() >= 2850, "{step}");
    }
}

fn refused<T>(built: Result<T, BuildError>) -> String {
    match built {
        Ok(_) => "it was built".to_string(),
        Err(error) => error.to_string(),
    }
}

#[test]
fn a_wrong_option_is_named_with_what_was_given() {
    let cases: [(fn(Numbers) -> Numbers, &str); 7] = [
        (
            |it| it.capacity(0),
            "capacity is 0: it has to be a number from 1 to 16777216",
        ),
        (
            |it| it.stripes(0),
            "stripes is 0: it has to be a number from 1 to 4096",
        ),
        (
            |it| it.stripes(4097),
            "stripes is 4097: it has to be a number from 1 to 4096",
        ),
        (
            |it| it.stripes(2).capacity(8193),
            "capacity is 8193: it has to be a number from 2 to 8192 with 2 stripes",
        ),
        (
            |it| it.stripes(2).capacity(1),
            "capacity is 1: it has to be a number from 2 to 8192 with 2 stripes",
        ),
        (
            |it| it.history(15),
            "history is 15: it has to be a number from 16 to 65536",
        ),
        (
            |it| it.history(65537),
            "history is 65537: it has to be a number from 16 to 65536",
        ),
    ];
    for (set, text) in cases {
        assert_eq!(refused(set(Cache::builder()).build()), text);
    }
    let bytes = BytesCache::builder();
    assert_eq!(
        refused(bytes.clone().stripes(65).build()),
        "stripes is 65: it has to be a number from 1 to 64"
    );
    assert_eq!(
        refused(bytes.capacity(262_145).build()),
        "capacity is 262145: it has to be a number from 1 to 262144"
    );
    let most = Cache::<u32, u32>::builder()
        .stripes(4096)
        .capacity(4096)
        .history(16);
    assert!(most.build().is_ok());
}
