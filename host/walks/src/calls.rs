//! The calls of `dfsc::calls`, each measured: how many bytes of stack it took. What is given to them is made before the measuring begins.
#![allow(clippy::too_many_arguments)]
use crate::stack::measured;
use dfsc::calls;

pub fn start(refs: &[u16], doms: &[u16], walk: &mut [u16], path: &[u16], boot: &[u16], limit: u32, size: u32, clock: u32, out: &mut [u8]) -> u32 {
    measured("dfsc_start", || calls::start(refs, doms, walk, path, boot, limit, size, clock, out))
}

pub fn answer_referral(refs: &mut [u16], doms: &mut [u16], walk: &mut [u16], status: u32, reply: &[u8], clock: u32, out: &mut [u8]) -> u32 {
    measured("dfsc_answer_referral", || calls::answer_referral(refs, doms, walk, status, reply, clock, out))
}

pub fn answer_io(refs: &mut [u16], doms: &[u16], walk: &mut [u16], status: u32, clock: u32, out: &mut [u8]) -> u32 {
    measured("dfsc_answer_io", || calls::answer_io(refs, doms, walk, status, clock, out))
}

pub fn question_party(refs: &[u16], doms: &[u16], walk: &[u16], out: &mut [u16]) -> u32 {
    measured("dfsc_question_party", || calls::question_party(refs, doms, walk, out))
}

pub fn question_name(walk: &[u16], out: &mut [u16]) -> u32 {
    measured("dfsc_question_name", || calls::question_name(walk, out))
}

pub fn question(walk: &[u16], out: &mut [u32]) -> u32 {
    measured("dfsc_question", || calls::question(walk, out))
}

pub fn end_path(walk: &[u16], out: &mut [u16]) -> u32 {
    measured("dfsc_end_path", || calls::end_path(walk, out))
}

pub fn end(walk: &[u16], out: &mut [u32]) -> u32 {
    measured("dfsc_end", || calls::end(walk, out))
}

pub fn domain_request(out: &mut [u8]) -> u32 {
    measured("dfsc_domain_request", || calls::domain_request(out))
}

pub fn read_domains(reply: &[u8], size: u32, doms: &mut [u16]) -> u32 {
    measured("dfsc_read_domains", || calls::read_domains(reply, size, doms))
}

pub fn list(refs: &[u16], out: &mut [u16]) -> u64 {
    measured("dfsc_list", || calls::list(refs, out))
}

pub fn read(text: &[u16], refs: &mut [u16]) -> u32 {
    measured("dfsc_read", || calls::read(text, refs))
}

pub fn expire_all(refs: &mut [u16]) -> u32 {
    measured("dfsc_expire_all", || calls::expire_all(refs))
}

pub fn expire(refs: &mut [u16], path: &[u16]) -> u32 {
    measured("dfsc_expire", || calls::expire(refs, path))
}

pub fn next_dc(doms: &mut [u16], name: &[u16]) -> u32 {
    measured("dfsc_next_dc", || calls::next_dc(doms, name))
}
