//! The first phase of a call on stripes alone, with no cache and no session.
ghost use Rattle.std.specs.Prelude.{◌≡◌, ◌≤◌, ◌+◌, length, IfOk, IsTrue};
ghost use Rattle.std.specs.List.{All};
ghost use Rattle.jc_types.specs.declared.limits.TheConstants.{STRIPES_MAX};
ghost use Rattle.bench_calls.specs.declared.loops.TheConstants.{KEYS};
ghost use Rattle.bench_calls.specs.Ready.{is_get_or_put, IsReady};

use crate::loops::KEYS;
use jc_model::{Op, Reply};
use jc_stripe::phase_laws::caller_numbers;
use jc_stripe::{Origin, Started, Stripe};
use jc_types::{Caller, Config, HISTORY_MAX, Key, STRIPES_MAX};
use std::alloc::{AllocError, Global};

/// As many empty stripes as a cache has at most, each the only one of its shape, with both options off.
pub fn stripes_alone(alloc: Global) -> Result<Vec<Stripe>, AllocError>
    ensures { IfOk result (λ ss. (length ss.items ≡ STRIPES_MAX) × All (λ s. IsReady 0 s) ss.items) }
{
    let config = Config {
        stripes: 1,
        capacity: KEYS,
        history: HISTORY_MAX,
        read_through: false,
        write_through: false,
    };
    let mut stripes = Vec::with_capacity(alloc, STRIPES_MAX)?;
    for _i in 0..STRIPES_MAX {
        stripes.push_reserved(Stripe::new(alloc, &config, 0, Origin::Live)?);
    }
    Ok(stripes)
}

/// The first phase of session 1's call with this number. Whether it returned a value or was a `put`.
fn begin_one(stripe: &mut Stripe, call: u64, key: &Key, op: &Op) -> bool
    requires op { IsTrue (is_get_or_put op.now) }
    requires ready { IsReady call stripe.old }
    ensures { IsReady (call + 1) stripe.new }
{
    caller_numbers();
    let caller = Caller { session: 1, call };
    let mut reply = Reply::Unit;
    match stripe.begin(caller, key, op, &mut reply) {
        Started::Done(_step) => matches!(&reply, Reply::Value(Some(_)) | Reply::Unit),
        Started::Refused(_) => false,
        Started::Asks(_ticket) => unreachable!(),
        Started::Joined(_join) => unreachable!(),
    }
}

/// So many first phases, of the keys and the stripes in turn. They are session 1's calls from a number on. How many of them returned a
/// value or were a `put`.
pub fn begin_all(stripes: &mut Vec<Stripe>, keys: &[Key], op: &Op, from: u32, calls: u32) -> u32
    requires count { length stripes.old.items ≡ STRIPES_MAX }
    requires keys { length keys.now ≡ KEYS }
    requires op { IsTrue (is_get_or_put op.now) }
    requires ready { All (λ s. IsReady from s) stripes.old.items }
    ensures count { length stripes.new.items ≡ STRIPES_MAX }
    ensures ready { All (λ s. IsReady (from + calls) s) stripes.new.items }
{
    let mut done = 0;
    for i in 0..calls {
        let call = from as u64 + i as u64;
        let turn = i as usize;
        if begin_one(
            &mut stripes[turn % STRIPES_MAX],
            call,
            &keys[turn % KEYS],
            op,
        ) {
            done += 1;
        }
    }
    done
}
