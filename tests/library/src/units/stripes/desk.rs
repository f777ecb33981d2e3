//! A stripe that is driven phase by phase, with the tickets and joins that are out. The conditions of a phase are asserted before
//! it.
use super::super::reopenings::is_once;
use super::words::Seen;
use jc_model::{Op, Out, Reply};
use jc_stripe::{
    Appended, First, Join, Origin, Picked, ReopenedStripes, Started, Stripe, Ticket, played_load,
    played_write, reopen,
};
use jc_types::{Caller, Config, Key, Value};
use std::alloc::Global;
use std::process::Abort;

/// A ticket that hasn't asked.
pub struct Unasked {
    ticket: Ticket,
}

impl Unasked {
    /// The call that has reserved its key.
    fn call(&self) -> u64 {
        self.ticket.reservation().caller.call
    }
}

/// A stripe, and the tickets and joins of the calls that are out.
pub struct Desk {
    pub stripe: Stripe,
    tickets: Vec<Unasked>,
    joins: Vec<Join>,
}

fn is_played(stripe: &Stripe) -> bool {
    matches!(stripe.origin(), Origin::Played)
}

/// Ends a call whose loader or writer was asked, with these answers.
fn commit(
    rt: &impl Abort,
    stripe: &mut Stripe,
    unasked: Unasked,
    out: &Out,
    reply: &mut Reply,
) -> Appended {
    let Unasked { mut ticket } = unasked;
    assert!(rt; stripe.holds(ticket.reservation()), "out");
    assert!(rt; is_played(stripe), "played");
    let first = ticket.reservation().first;
    match first {
        First::Loader => {
            assert!(rt; out.load.is_given(), "the loader's answer");
            let ask = ticket.ask();
            let done = played_load(ask, out.load);
            stripe.commit_load(ticket, done, reply)
        }
        First::Writer(_) => {
            assert!(rt; out.write.is_given(), "the writer's answer");
            let ask = ticket.ask();
            let done = played_write(ask, out.write);
            stripe.commit_write(ticket, done, reply)
        }
        First::Nobody | First::Processor { .. } => panic!(rt; "neither is asked"),
    }
}

impl Desk {
    /// An empty stripe of this shape, whose first reservation has this number.
    pub fn new(rt: &impl Abort, alloc: Global, config: &Config, next: u64) -> Self {
        config.check().expect(rt, "a shape");
        let stripe = Stripe::new_from(alloc, config, 0, Origin::Played, next);
        Desk {
            stripe: stripe.expect(rt, "memory"),
            tickets: Vec::new(alloc),
            joins: Vec::new(alloc),
        }
    }

    /// The only stripe of this shape, which opens with these entries.
    pub fn open_with(
        rt: &impl Abort,
        alloc: Global,
        config: &Config,
        opening: &[(Key, Value)],
    ) -> Self {
        config.check().expect(rt, "a shape");
        assert!(rt; is_once(rt, alloc, opening), "each key once");
        let reopened = reopen(alloc, config, Origin::Played, opening);
        let ReopenedStripes {
            mut stripes,
            dropped,
        } = reopened.expect(rt, "memory");
        assert!(rt; dropped.is_empty() && stripes.len() == 1, "one stripe");
        Desk {
            stripe: stripes.pop().expect(rt, "a stripe"),
            tickets: Vec::new(alloc),
            joins: Vec::new(alloc),
        }
    }

    /// The first phase of a call.
    pub fn begin(&mut self, rt: &impl Abort, caller: Caller, key: &Key, op: &Op) -> Seen {
        assert!(rt; self.stripe.admits(caller, key), "{caller:?} may begin");
        let mut reply = Reply::Unit;
        match self.stripe.begin(caller, key, op, &mut reply) {
            Started::Done(step) => Seen::Step(reply, step.place),
            Started::Refused(refusal) => Seen::Refused(refusal),
            Started::Joined(join) => self.keep_join(rt, join),
            Started::Asks(ticket) => self.keep_ticket(rt, Unasked { ticket }),
        }
    }

    fn keep_ticket(&mut self, rt: &impl Abort, unasked: Unasked) -> Seen {
        let first = unasked.ticket.reservation().first;
        match self.tickets.push(unasked) {
            Ok(()) => Seen::Asks(first),
            Err(_failed) => panic!(rt; "memory"),
        }
    }

    /// Keeps a join, and shows the call whose load it has joined.
    fn keep_join(&mut self, rt: &impl Abort, join: Join) -> Seen {
        let load = join.load();
        let place = self
            .tickets
            .iter()
            .position(|u| u.ticket.reservation().number == load);
        let place = place.expect(rt, "the load is out");
        let call = self.tickets[place].call();
        match self.joins.push(join) {
            Ok(()) => Seen::Joins(call),
            Err(_failed) => panic!(rt; "memory"),
        }
    }

    fn take_ticket(&mut self, rt: &impl Abort, call: u64) -> Unasked {
        let place = self.tickets.iter().position(|u| u.call() == call);
        self.tickets.swap_remove(place.expect(rt, "a ticket"))
    }

    /// The last phase of a call whose loader or writer was asked.
    pub fn commit(&mut self, rt: &impl Abort, call: u64, out: &Out) -> Seen {
        let ticket = self.take_ticket(rt, call);
        let mut reply = Reply::Unit;
        let step = commit(rt, &mut self.stripe, ticket, out, &mut reply);
        Seen::Step(reply, step.place)
    }

    /// Gives back a call's reservation.
    pub fn withdraw(&mut self, rt: &impl Abort, call: u64) -> Seen {
        let Unasked { ticket } = self.take_ticket(rt, call);
        assert!(rt; self.stripe.holds(ticket.reservation()), "out");
        self.stripe.withdraw(ticket);
        Seen::Dropped
    }

    /// A call that has joined a load asks for its answer.
    pub fn pick_up(&mut self, rt: &impl Abort, call: u64) -> Seen {
        let place = self.joins.iter().position(|j| j.caller().call == call);
        let join = self.joins.swap_remove(place.expect(rt, "a join"));
        assert!(rt; self.stripe.holds_join(&join), "out");
        let mut reply = Reply::Unit;
        match self.stripe.pick_up(join, &mut reply) {
            Picked::Answer { place, shared_with } => Seen::Shared(reply, place, shared_with),
            Picked::Again => Seen::Again,
            Picked::NotYet(join) => {
                let _load = self.keep_join(rt, join);
                Seen::Waits
            }
        }
    }

    /// Makes the stripe as a new one, and shows whether nothing is out in it.
    pub fn restart(&mut self, rt: &impl Abort) -> Seen {
        assert!(rt; self.stripe.is_idle(), "no call is out");
        self.stripe.restart();
        Seen::Flag(self.stripe.is_idle())
    }

    /// Asserts that no call is out, and ends the run.
    pub fn close(self, rt: &impl Abort) {
        let Desk {
            stripe,
            tickets,
            joins,
        } = self;
        assert!(rt; tickets.is_empty() && joins.is_empty() && stripe.is_idle());
        tickets.destroy_empty();
        joins.destroy_empty();
    }
}
