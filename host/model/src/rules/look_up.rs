//! Finds the entry of a referral cache whose prefix is the longest that matches a path by whole
//! components, with A to Z equal to a to z. Most entries are passed over by their last four units.

const PLACE: usize = 2336; // units of a place
const TEXT: usize = 32; // where the prefix's text begins in its place
const ROOM: usize = 256; // room for the text
const BACKSLASH: u16 = 92;
const CASE: u16 = 32; // the bit in which a to z differ from A to Z

/// The place of the longest prefix that matches the path.
pub fn longest(cache: &[u16], path: &[u16]) -> Option<usize> {
    let end = path.len().checked_sub(4)?; // no prefix is shorter than four units
    let mut found = None;
    let mut best = 0;
    for (i, place) in cache.as_chunks::<PLACE>().0.iter().enumerate() {
        if !may_match(place, path, end) {
            continue;
        }
        let Some(length) = matches(place, path, best) else {
            continue;
        };
        if length == path.len() {
            return Some(i); // none can be longer
        }
        best = length;
        found = Some(i);
    }
    found
}

/// Whether the prefix's last four units are those of the path there, but for the case bit. Prefixes
/// begin alike, so their ends tell them apart. Where the path is too short its own end is taken
/// instead: that needs no branch, which would often be guessed wrong, and `matches` sorts it out.
#[inline(always)]
fn may_match(place: &[u16; PLACE], path: &[u16], end: usize) -> bool {
    let at = usize::from(place[0]).wrapping_sub(4);
    if at > ROOM - 4 {
        return false; // a free place, or not in order
    }
    let differ = four(&place[TEXT..], at) ^ four(path, at.min(end));
    differ & !(u64::from(CASE) * 0x0001_0001_0001_0001) == 0
}

/// Four units as one number, so that they are loaded and compared at once.
#[inline(always)]
fn four(units: &[u16], at: usize) -> u64 {
    let u = &units[at..][..4];
    u64::from(u[0]) | u64::from(u[1]) << 16 | u64::from(u[2]) << 32 | u64::from(u[3]) << 48
}

/// The prefix's length, if it is more than `best` and the prefix matches the path.
#[inline(always)]
fn matches(place: &[u16; PLACE], path: &[u16], best: usize) -> Option<usize> {
    let length = usize::from(place[0]);
    if length <= best || length > path.len() {
        return None;
    }
    if length < path.len() && path[length] != BACKSLASH {
        return None; // ends within a component
    }
    same(place.get(TEXT..TEXT + length)?, &path[..length]).then_some(length)
}

/// Whether two texts of one length are equal as names: eight units at a time, the last eight
/// overlapping those before, with all differences gathered and looked at once.
#[inline(always)]
fn same(a: &[u16], b: &[u16]) -> bool {
    let Some(last) = a.len().checked_sub(8) else {
        return a.iter().zip(b).all(|(&a, &b)| differ(a, b) == 0);
    };
    let mut all = [0; 8];
    for from in (0..a.len()).step_by(8) {
        let at = from.min(last);
        let (a, b) = (&a[at..][..8], &b[at..][..8]);
        for k in 0..8 {
            all[k] |= differ(a[k], b[k]);
        }
    }
    all.iter().fold(0, |x, y| x | y) == 0
}

/// The bits in which two units differ, without the case bit if one is a letter; 0 if they are equal.
#[inline(always)]
fn differ(a: u16, b: u16) -> u16 {
    let letter = (a | CASE).wrapping_sub(u16::from(b'a')) < 26;
    (a ^ b) & if letter { !CASE } else { !0 }
}
