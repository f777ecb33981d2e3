//! What `bench/threads` compares with: workers who call a cache in plain Rust.
//!
//! usage: threads_plain WORKERS STRIPES CALLS
mod plain_cache;

use plain_cache::{all_keys, lock_stripe, stripes_of, Caller, Key, Stripe, KEYS};
use std::sync::Mutex;
use std::thread;

fn work(stripes: &[Mutex<Stripe>], keys: &[Key], session: u32, calls: u32) -> u32 {
    let value = *b"a 16-byte value.";
    let mut next = session as u64;
    let mut done = 0;
    for i in 0..calls {
        next = next.wrapping_mul(6364136223846793005).wrapping_add(1442695040888963407);
        let key = &keys[(next >> 33) as usize % KEYS];
        let caller = Caller { session, call: i as u64 };
        let mut stripe = lock_stripe(stripes, key);
        if i % 10 < 2 {
            stripe.put(caller, key, &value);
            done += 1;
        } else {
            done += u32::from(std::hint::black_box(stripe.get(caller, key)).is_none_or(|v| v == value));
        }
    }
    done
}

fn main() {
    let words: Vec<usize> = std::env::args().skip(1).map(|word| word.parse().expect("a number")).collect();
    let [workers, stripes, calls] = words[..] else { panic!("usage: threads_plain WORKERS STRIPES CALLS") };
    let keys = all_keys(b'a');
    let stripes = stripes_of(stripes, 65_536);
    let done: u32 = thread::scope(|scope| {
        let threads: Vec<_> = (0..workers)
            .map(|session| scope.spawn({
                let (stripes, keys) = (&stripes, &keys);
                move || work(stripes, keys, session as u32, calls as u32)
            }))
            .collect();
        threads.into_iter().map(|thread| thread.join().unwrap()).sum()
    });
    println!("{done}");
}
