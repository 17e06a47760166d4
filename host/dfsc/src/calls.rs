//! The functions of include/dfsc.h over slices, one to one: what they are given, what they write and the numbers that they give back are as the header
//! says. The only file of this crate with `unsafe` in it.
//!
//! Each is safe on every content and every length: what is not as it should be is refused by a number, and a slice that is written (`&mut`) overlaps no other.
#![allow(clippy::too_many_arguments)]

extern "C" {
    // calls that move a walk
    fn dfsc_start(
        refs: *const u16, refs_len: usize, doms: *const u16, doms_len: usize, walk: *mut u16, walk_len: usize, path: *const u16, path_len: usize,
        boot: *const u16, boot_len: usize, limit: u32, size: u32, clock: u32, out: *mut u8, out_len: usize,
    ) -> u32;
    fn dfsc_answer_referral(
        refs: *mut u16, refs_len: usize, doms: *mut u16, doms_len: usize, walk: *mut u16, walk_len: usize, status: u32, reply: *const u8, reply_len: usize,
        clock: u32, out: *mut u8, out_len: usize,
    ) -> u32;
    fn dfsc_answer_io(
        refs: *mut u16, refs_len: usize, doms: *const u16, doms_len: usize, walk: *mut u16, walk_len: usize, status: u32, clock: u32, out: *mut u8,
        out_len: usize,
    ) -> u32;

    // calls that show something of it
    fn dfsc_question_party(
        refs: *const u16, refs_len: usize, doms: *const u16, doms_len: usize, walk: *const u16, walk_len: usize, out: *mut u16, out_len: usize,
    ) -> u32;
    fn dfsc_question_name(walk: *const u16, walk_len: usize, out: *mut u16, out_len: usize) -> u32;
    fn dfsc_question(walk: *const u16, walk_len: usize, out: *mut u32, out_len: usize) -> u32;
    fn dfsc_end_path(walk: *const u16, walk_len: usize, out: *mut u16, out_len: usize) -> u32;
    fn dfsc_end(walk: *const u16, walk_len: usize, out: *mut u32, out_len: usize) -> u32;

    // the domain cache
    fn dfsc_domain_request(out: *mut u8, out_len: usize) -> u32;
    fn dfsc_read_domains(reply: *const u8, reply_len: usize, size: u32, doms: *mut u16, doms_len: usize) -> u32;

    // the referral cache as text, and back
    fn dfsc_list(refs: *const u16, refs_len: usize, out: *mut u16, out_len: usize) -> u64;
    fn dfsc_read(text: *const u16, text_len: usize, refs: *mut u16, refs_len: usize) -> u32;

    // what a host does to its caches beside walks
    fn dfsc_expire_all(refs: *mut u16, refs_len: usize) -> u32;
    fn dfsc_expire(refs: *mut u16, refs_len: usize, path: *const u16, path_len: usize) -> u32;
    fn dfsc_next_dc(doms: *mut u16, doms_len: usize, name: *const u16, name_len: usize) -> u32;

    fn dfsc_version() -> u32;
}

/// `dfsc_start`: a new walk for a path. 0, or a refusal.
#[inline]
pub fn start(refs: &[u16], doms: &[u16], walk: &mut [u16], path: &[u16], boot: &[u16], limit: u32, size: u32, clock: u32, out: &mut [u8]) -> u32 {
    unsafe {
        dfsc_start(
            refs.as_ptr(),
            refs.len(),
            doms.as_ptr(),
            doms.len(),
            walk.as_mut_ptr(),
            walk.len(),
            path.as_ptr(),
            path.len(),
            boot.as_ptr(),
            boot.len(),
            limit,
            size,
            clock,
            out.as_mut_ptr(),
            out.len(),
        )
    }
}

/// `dfsc_answer_referral`: the answer to a referral request. 0, or a refusal.
#[inline]
pub fn answer_referral(refs: &mut [u16], doms: &mut [u16], walk: &mut [u16], status: u32, reply: &[u8], clock: u32, out: &mut [u8]) -> u32 {
    unsafe {
        dfsc_answer_referral(
            refs.as_mut_ptr(),
            refs.len(),
            doms.as_mut_ptr(),
            doms.len(),
            walk.as_mut_ptr(),
            walk.len(),
            status,
            reply.as_ptr(),
            reply.len(),
            clock,
            out.as_mut_ptr(),
            out.len(),
        )
    }
}

/// `dfsc_answer_io`: the answer to an I/O try. 0, or a refusal.
#[inline]
pub fn answer_io(refs: &mut [u16], doms: &[u16], walk: &mut [u16], status: u32, clock: u32, out: &mut [u8]) -> u32 {
    unsafe {
        dfsc_answer_io(refs.as_mut_ptr(), refs.len(), doms.as_ptr(), doms.len(), walk.as_mut_ptr(), walk.len(), status, clock, out.as_mut_ptr(), out.len())
    }
}

/// `dfsc_question_party`: whom the question is for. Its units, or 65,536 times a refusal.
#[inline]
pub fn question_party(refs: &[u16], doms: &[u16], walk: &[u16], out: &mut [u16]) -> u32 {
    unsafe { dfsc_question_party(refs.as_ptr(), refs.len(), doms.as_ptr(), doms.len(), walk.as_ptr(), walk.len(), out.as_mut_ptr(), out.len()) }
}

/// `dfsc_question_name`: the name that is asked for, or the path that the I/O tries. Its units, or 65,536 times a refusal.
#[inline]
pub fn question_name(walk: &[u16], out: &mut [u16]) -> u32 {
    unsafe { dfsc_question_name(walk.as_ptr(), walk.len(), out.as_mut_ptr(), out.len()) }
}

/// `dfsc_question`: kind, size and moves. 3, or 65,536 times a refusal.
#[inline]
pub fn question(walk: &[u16], out: &mut [u32]) -> u32 {
    unsafe { dfsc_question(walk.as_ptr(), walk.len(), out.as_mut_ptr(), out.len()) }
}

/// `dfsc_end_path`: the end's path. Its units, or 65,536 times a refusal.
#[inline]
pub fn end_path(walk: &[u16], out: &mut [u16]) -> u32 {
    unsafe { dfsc_end_path(walk.as_ptr(), walk.len(), out.as_mut_ptr(), out.len()) }
}

/// `dfsc_end`: number, status and moves. 3, or 65,536 times a refusal.
#[inline]
pub fn end(walk: &[u16], out: &mut [u32]) -> u32 {
    unsafe { dfsc_end(walk.as_ptr(), walk.len(), out.as_mut_ptr(), out.len()) }
}

/// `dfsc_domain_request`: the request for a domain reply. 0, or a refusal.
#[inline]
pub fn domain_request(out: &mut [u8]) -> u32 {
    unsafe { dfsc_domain_request(out.as_mut_ptr(), out.len()) }
}

/// `dfsc_read_domains`: a domain reply in place of what the domain cache holds. 0, or a refusal.
#[inline]
pub fn read_domains(reply: &[u8], size: u32, doms: &mut [u16]) -> u32 {
    unsafe { dfsc_read_domains(reply.as_ptr(), reply.len(), size, doms.as_mut_ptr(), doms.len()) }
}

/// `dfsc_list`: the referral cache as text. Its units, or 2^32 times a refusal.
#[inline]
pub fn list(refs: &[u16], out: &mut [u16]) -> u64 {
    unsafe { dfsc_list(refs.as_ptr(), refs.len(), out.as_mut_ptr(), out.len()) }
}

/// `dfsc_read`: a text in place of what the referral cache holds. 0, or a refusal.
#[inline]
pub fn read(text: &[u16], refs: &mut [u16]) -> u32 {
    unsafe { dfsc_read(text.as_ptr(), text.len(), refs.as_mut_ptr(), refs.len()) }
}

/// `dfsc_expire_all`: every referral entry is expired. 0, or a refusal.
#[inline]
pub fn expire_all(refs: &mut [u16]) -> u32 {
    unsafe { dfsc_expire_all(refs.as_mut_ptr(), refs.len()) }
}

/// `dfsc_expire`: the referral entry whose prefix is equal to the path is expired. 0, or a refusal.
#[inline]
pub fn expire(refs: &mut [u16], path: &[u16]) -> u32 {
    unsafe { dfsc_expire(refs.as_mut_ptr(), refs.len(), path.as_ptr(), path.len()) }
}

/// `dfsc_next_dc`: the hint of a domain to its next DC. 0, or a refusal.
#[inline]
pub fn next_dc(doms: &mut [u16], name: &[u16]) -> u32 {
    unsafe { dfsc_next_dc(doms.as_mut_ptr(), doms.len(), name.as_ptr(), name.len()) }
}

/// `dfsc_version`: the version of the library.
#[inline]
pub fn version() -> u32 {
    unsafe { dfsc_version() }
}
