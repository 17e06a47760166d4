//! The calls of `dfsc::calls` on memory of slots: each slice in memory of exactly its length, as `lend_at` says.
#![allow(clippy::too_many_arguments)]
use crate::slots::{Side, Slot};
use dfsc::calls;
use std::cell::RefCell;

/// A slot for each slice that a call is lent.
pub struct Lender {
    pub refs: Slot<u16>,
    pub doms: Slot<u16>,
    pub walk: Slot<u16>,
    pub path: Slot<u16>,
    pub boot: Slot<u16>,
    pub reply: Slot<u8>,
    pub request: Slot<u8>,
    pub text: Slot<u16>,
    pub numbers: Slot<u32>,
    pub listing: Slot<u16>,
    pub name: Slot<u16>,
}

impl Lender {
    /// On the heap, or at an unreadable page.
    pub fn new(side: Option<Side>) -> Lender {
        Lender {
            refs: Slot::new(side),
            doms: Slot::new(side),
            walk: Slot::new(side),
            path: Slot::new(side),
            boot: Slot::new(side),
            reply: Slot::new(side),
            request: Slot::new(side),
            text: Slot::new(side),
            numbers: Slot::new(side),
            listing: Slot::new(side),
            name: Slot::new(side),
        }
    }
}

thread_local! {
    static LENDER: RefCell<Lender> = RefCell::new(Lender::new(None));
}

/// Where the slices of all later calls stand.
pub fn lend_at(side: Side) {
    LENDER.with(|l| *l.borrow_mut() = Lender::new(Some(side)));
}

fn lending<N>(call: impl FnOnce(&mut Lender) -> N) -> N {
    LENDER.with(|l| call(&mut l.borrow_mut()))
}

pub fn start(refs: &[u16], doms: &[u16], walk: &mut [u16], path: &[u16], boot: &[u16], limit: u32, size: u32, clock: u32, out: &mut [u8]) -> u32 {
    lending(|l| {
        let number = calls::start(l.refs.lend(refs), l.doms.lend(doms), l.walk.lend(walk), l.path.lend(path), l.boot.lend(boot), limit, size, clock, l.request.lend(out));
        l.refs.is_as_lent(refs);
        l.doms.is_as_lent(doms);
        l.path.is_as_lent(path);
        l.boot.is_as_lent(boot);
        l.walk.take_back(walk);
        l.request.take_back(out);
        number
    })
}

pub fn answer_referral(refs: &mut [u16], doms: &mut [u16], walk: &mut [u16], status: u32, reply: &[u8], clock: u32, out: &mut [u8]) -> u32 {
    lending(|l| {
        let number = calls::answer_referral(l.refs.lend(refs), l.doms.lend(doms), l.walk.lend(walk), status, l.reply.lend(reply), clock, l.request.lend(out));
        l.reply.is_as_lent(reply);
        l.refs.take_back(refs);
        l.doms.take_back(doms);
        l.walk.take_back(walk);
        l.request.take_back(out);
        number
    })
}

pub fn answer_io(refs: &mut [u16], doms: &[u16], walk: &mut [u16], status: u32, clock: u32, out: &mut [u8]) -> u32 {
    lending(|l| {
        let number = calls::answer_io(l.refs.lend(refs), l.doms.lend(doms), l.walk.lend(walk), status, clock, l.request.lend(out));
        l.doms.is_as_lent(doms);
        l.refs.take_back(refs);
        l.walk.take_back(walk);
        l.request.take_back(out);
        number
    })
}

pub fn question_party(refs: &[u16], doms: &[u16], walk: &[u16], out: &mut [u16]) -> u32 {
    lending(|l| {
        let number = calls::question_party(l.refs.lend(refs), l.doms.lend(doms), l.walk.lend(walk), l.text.lend(out));
        l.refs.is_as_lent(refs);
        l.doms.is_as_lent(doms);
        l.walk.is_as_lent(walk);
        l.text.take_back(out);
        number
    })
}

// A call that shows something of the walk.
fn shows<T: crate::slots::Unit>(call: fn(&[u16], &mut [T]) -> u32, out_slot: fn(&mut Lender) -> (&mut Slot<u16>, &mut Slot<T>), walk: &[u16], out: &mut [T]) -> u32 {
    lending(|l| {
        let (walk_slot, out_slot) = out_slot(l);
        let number = call(walk_slot.lend(walk), out_slot.lend(out));
        walk_slot.is_as_lent(walk);
        out_slot.take_back(out);
        number
    })
}

pub fn question_name(walk: &[u16], out: &mut [u16]) -> u32 {
    shows(calls::question_name, |l| (&mut l.walk, &mut l.text), walk, out)
}

pub fn question(walk: &[u16], out: &mut [u32]) -> u32 {
    shows(calls::question, |l| (&mut l.walk, &mut l.numbers), walk, out)
}

pub fn end_path(walk: &[u16], out: &mut [u16]) -> u32 {
    shows(calls::end_path, |l| (&mut l.walk, &mut l.text), walk, out)
}

pub fn end(walk: &[u16], out: &mut [u32]) -> u32 {
    shows(calls::end, |l| (&mut l.walk, &mut l.numbers), walk, out)
}

pub fn domain_request(out: &mut [u8]) -> u32 {
    lending(|l| {
        let number = calls::domain_request(l.request.lend(out));
        l.request.take_back(out);
        number
    })
}

pub fn read_domains(reply: &[u8], size: u32, doms: &mut [u16]) -> u32 {
    lending(|l| {
        let number = calls::read_domains(l.reply.lend(reply), size, l.doms.lend(doms));
        l.reply.is_as_lent(reply);
        l.doms.take_back(doms);
        number
    })
}

pub fn list(refs: &[u16], out: &mut [u16]) -> u64 {
    lending(|l| {
        let number = calls::list(l.refs.lend(refs), l.listing.lend(out));
        l.refs.is_as_lent(refs);
        l.listing.take_back(out);
        number
    })
}

pub fn read(text: &[u16], refs: &mut [u16]) -> u32 {
    lending(|l| {
        let number = calls::read(l.listing.lend(text), l.refs.lend(refs));
        l.listing.is_as_lent(text);
        l.refs.take_back(refs);
        number
    })
}

pub fn expire_all(refs: &mut [u16]) -> u32 {
    lending(|l| {
        let number = calls::expire_all(l.refs.lend(refs));
        l.refs.take_back(refs);
        number
    })
}

pub fn expire(refs: &mut [u16], path: &[u16]) -> u32 {
    lending(|l| {
        let number = calls::expire(l.refs.lend(refs), l.path.lend(path));
        l.path.is_as_lent(path);
        l.refs.take_back(refs);
        number
    })
}

pub fn next_dc(doms: &mut [u16], name: &[u16]) -> u32 {
    lending(|l| {
        let number = calls::next_dc(l.doms.lend(doms), l.name.lend(name));
        l.name.is_as_lent(name);
        l.doms.take_back(doms);
        number
    })
}

pub fn version() -> u32 {
    calls::version()
}
