//! The control of the lending: for each slot a call that uses the whole of its slice, with elements of its memory missing, must not survive at an
//! unreadable page, and is reported by valgrind on the heap. With nothing missing the same call is taken. A slot that one call writes
//! and another reads, or that calls of another kind use, has one more for each.
use crate::calls::Lender;
use crate::rules::names::ascii;
use crate::slots::Side;
use dfsc::{calls, PLACE_UNITS, WALK_UNITS};
use std::os::unix::process::ExitStatusExt;
use std::process::Command;

pub const SLOTS: [&str; 16] = ["refs", "doms", "walk", "path", "boot", "reply", "request", "text", "numbers", "listing", "listing-read", "refs-expire-all",
    "refs-expire", "path-expire", "doms-next-dc", "name"];
/// The control of which nothing is missing.
pub const NONE: &str = "none";
const SEGMENTATION_FAULT: i32 = 11;

fn reply() -> Vec<u8> {
    let string = |s: &str| ascii(s).into_iter().chain([0]).flat_map(u16::to_le_bytes).collect::<Vec<u8>>();
    let fields = [0u16, 1, 2, 0, 3, 34, 1, 0, 300, 0, 34, 34, 54].into_iter().flat_map(u16::to_le_bytes).collect();
    [fields, vec![0; 16], string("\\files\\s1"), string("\\nas1\\s1")].concat()
}

// A domain with one DC, in a cache of one place.
fn domain() -> Vec<u16> {
    let mut units = vec![0; PLACE_UNITS];
    (units[0], units[1], units[9]) = (4, 3, 1);
    units[32..36].copy_from_slice(&ascii("corp"));
    units[288..291].copy_from_slice(&ascii("dc1"));
    units
}

const LISTING: &str = "prefix=\\a\\b\nkind=root\ninterlink=0\nfailback=0\nttl=0\ntaken=0\nhint=0\ntarget=\\c\\d\n";

/// A start and what follows, a listing read and listed again, its entry expired and a hint moved, with elements of one slot missing, or of none: whether each call was taken.
pub fn survives(side: Option<Side>, slot: &str) -> bool {
    // the first two bytes of a reply, PathConsumed, are not used
    let missed = |name: &str| (name == slot) as usize * if name == "reply" && side == Some(Side::Start) { 3 } else { 1 };
    let (cache, path, boot) = (vec![0; PLACE_UNITS], ascii("\\files\\s1"), ascii("dc1"));
    let mut l = Lender::new(side);
    let mut walk = vec![0; WALK_UNITS];
    let started = calls::start(l.refs.lend_short(&cache, missed("refs")), l.doms.lend_short(&cache, missed("doms")), l.walk.lend_short(&walk, missed("walk")),
        l.path.lend_short(&path, missed("path")), l.boot.lend_short(&boot, missed("boot")), 4, 8192, 100, l.request.lend_short(&[0; 22], missed("request")));
    if slot == "walk" {
        return started == 0;
    }
    l.walk.take_back(&mut walk);
    let named = calls::question_name(l.walk.lend(&walk), l.text.lend_short(&[0; 9], missed("text")));
    let asked = calls::question(l.walk.lend(&walk), l.numbers.lend_short(&[0; 3], missed("numbers")));
    let answered = calls::answer_referral(l.refs.lend(&cache), l.doms.lend(&cache), l.walk.lend(&walk), 0, l.reply.lend_short(&reply(), missed("reply")), 100,
        l.request.lend(&[]));
    let (text, mut refs) = (ascii(LISTING), cache);
    let read = calls::read(l.listing.lend_short(&text, missed("listing-read")), l.refs.lend(&refs));
    l.refs.take_back(&mut refs);
    let listed = calls::list(l.refs.lend(&refs), l.listing.lend_short(&vec![0; text.len()], missed("listing")));
    let expired_all = calls::expire_all(l.refs.lend_short(&refs, missed("refs-expire-all")));
    let expired = calls::expire(l.refs.lend_short(&refs, missed("refs-expire")), l.path.lend_short(&ascii("\\a\\b"), missed("path-expire")));
    let moved = calls::next_dc(l.doms.lend_short(&domain(), missed("doms-next-dc")), l.name.lend_short(&ascii("corp"), missed("name")));
    (started, named, asked, answered, read, listed, expired_all, expired, moved) == (0, 9, 3, 0, 0, text.len() as u64, 0, 0, 0)
}

/// Runs each control in a process of its own: whether all came out as they must.
pub fn all(side: Side) -> bool {
    let run = |slot: &str| {
        let side = if side == Side::End { "end" } else { "start" };
        Command::new(std::env::current_exe().expect("this program")).args(["--control", slot, "--guard", side]).status().expect("a process")
    };
    let whole = run(NONE);
    let survived: Vec<&str> = SLOTS.into_iter().filter(|slot| run(slot).signal() != Some(SEGMENTATION_FAULT)).collect();
    if whole.success() && survived.is_empty() {
        println!("controls, {side:?} of slices at an unreadable page: {} caught, and all taken with nothing missing", SLOTS.len());
        return true;
    }
    println!("controls, {side:?} of slices at an unreadable page: with nothing missing {whole}, not caught {survived:?}");
    false
}
