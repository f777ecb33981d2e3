//! The shape of a cache.
use super::is;
use jc_types::{Config, Field, Refusal};

// Stripes, capacity and history, and the first field that is out of its limits.
const SHAPES: [(&str, usize, usize, usize, Option<Field>); 12] = [
    ("the least", 1, 1, 16, None),
    ("the most", 64, 4096, 65536, None),
    ("few stripes", 0, 1, 16, Some(Field::Stripes)),
    ("many stripes", 65, 4096, 65536, Some(Field::Stripes)),
    ("low capacity", 1, 0, 16, Some(Field::Capacity)),
    ("high capacity", 64, 4097, 65536, Some(Field::Capacity)),
    ("short history", 1, 1, 15, Some(Field::History)),
    ("long history", 64, 4096, 65537, Some(Field::History)),
    ("all too few", 0, 0, 15, Some(Field::Stripes)),
    ("the first two", 65, 4097, 16, Some(Field::Stripes)),
    ("the last two", 64, 4097, 65537, Some(Field::Capacity)),
    ("the last two, too few", 64, 0, 0, Some(Field::Capacity)),
];

#[test]
fn checks_stripes_then_capacity_then_history(rt: HostRuntime) {
    for (at, stripes, capacity, history, fault) in SHAPES {
        let config = Config {
            stripes,
            capacity,
            history,
            read_through: true,
            write_through: false,
        };
        let want = match fault {
            Some(field) => Err(Refusal::BadConfig(field)),
            None => Ok(()),
        };
        is(&rt, at, config.check(), want);
    }
}
