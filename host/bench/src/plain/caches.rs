//! The order test and the look-ups.
use super::names::{good_name, path_components, same, same_alike, BACKSLASH};
use dfsc::PLACE_UNITS as PLACE;

pub const HEAD: usize = 32;
pub const ROOM: usize = 256;

// 32 units at a time: the compiler makes vector instructions of it.
fn zero(units: &[u16]) -> bool {
    let blocks = units.chunks_exact(32);
    blocks.remainder().iter().all(|u| *u == 0) && blocks.into_iter().all(|b| b.iter().fold(0, |all, u| all | u) == 0)
}

// The text of room j, where it fits and the rest of the room is zero.
fn room(place: &[u16], j: usize) -> Option<&[u16]> {
    let n = place[j] as usize;
    let room = &place[HEAD + ROOM * j..HEAD + ROOM * (j + 1)];
    (n <= ROOM && zero(&room[n..])).then(|| &room[..n])
}

/// The text of room j of a place that is in order.
pub fn text(place: &[u16], j: usize) -> &[u16] {
    &place[HEAD + ROOM * j..][..place[j] as usize]
}

// All nine rooms: the first by `good`, so many others by `listed`, the rest empty.
fn rooms(place: &[u16], count: usize, good: impl Fn(&[u16]) -> bool) -> bool {
    (0..9).all(|j| match room(place, j) {
        None => false,
        Some(t) if j <= count => good(t),
        Some(t) => t.is_empty(),
    })
}

fn good_referral(p: &[u16]) -> bool {
    let count = p[9] as usize;
    (1..=8).contains(&count)
        && p[10] < p[9]
        && p[11] == 0
        && p[11..22].iter().all(|u| *u <= 1)
        && zero(&p[11 + count..19])
        && zero(&p[26..32])
        && rooms(p, count, |t| path_components(t) >= 2)
}

fn good_domain(p: &[u16]) -> bool {
    let count = p[9] as usize;
    count <= 8 && (p[10] < p[9] || count == 0 && p[10] == 0) && zero(&p[11..32]) && rooms(p, count, good_name)
}

fn in_order(cache: &[u16], good: impl Fn(&[u16]) -> bool) -> bool {
    let count = cache.len() / PLACE;
    if !(1..=32).contains(&count) || count * PLACE != cache.len() {
        return false;
    }
    for (i, p) in cache.chunks_exact(PLACE).enumerate() {
        if p[0] == 0 {
            if !zero(p) {
                return false;
            }
        } else if !good(p) || cache[..i * PLACE].chunks_exact(PLACE).any(|q| same(text(q, 0), text(p, 0))) {
            return false;
        }
    }
    true
}

pub fn referrals_in_order(cache: &[u16]) -> bool {
    in_order(cache, good_referral)
}

pub fn domains_in_order(cache: &[u16]) -> bool {
    in_order(cache, good_domain)
}

// The last two units as one number.
#[inline]
fn last_two(t: &[u16]) -> u32 {
    t.last_chunk::<2>().map_or(0, |[x, y]| *x as u32 | (*y as u32) << 16)
}

// Whether two units differ in the five low bits, which equal units have in common.
#[inline]
fn unlike(a: u32, b: u32) -> bool {
    (a ^ b) & 0x1f001f != 0
}

// How many places, from the first on, pass a test; four a turn.
#[inline]
fn while_all(cache: &[u16], test: impl Fn(&[u16]) -> bool) -> usize {
    let fours = cache.chunks_exact(4 * PLACE);
    let rest = fours.remainder();
    let mut i = 0;
    for four in fours {
        for k in 0..4 {
            if !test(&four[k * PLACE..(k + 1) * PLACE]) {
                return i + k;
            }
        }
        i += 4;
    }
    i + rest.chunks_exact(PLACE).take_while(|p| test(p)).count()
}

/// The place whose prefix is the longest that matches the path, for caches whose prefixes have one length: places of one length, one after another, are told
/// apart by their last two units; those of the path are read once for all of them.
pub fn find(cache: &[u16], path: &[u16]) -> Option<usize> {
    let count = cache.len() / PLACE;
    let (mut best, mut units, mut i) = (None, 0, 0);
    while i < count {
        let n = cache[i * PLACE] as usize;
        if n > path.len() || n > ROOM {
            i += 1;
            continue;
        }
        if n > 1 {
            let last = last_two(&path[..n]);
            i += while_all(&cache[i * PLACE..], |p| p[0] as usize == n && unlike(last_two(&p[HEAD..HEAD + n]), last));
            if i == count {
                break;
            }
            if cache[i * PLACE] as usize != n {
                continue;
            }
        }
        if n > units && (n == path.len() || path[n] == BACKSLASH) && same_alike(&cache[i * PLACE + HEAD..][..n], &path[..n]) {
            if n == path.len() {
                return Some(i);
            }
            best = Some(i);
            units = n;
        }
        i += 1;
    }
    best
}

/// The place whose key is equal.
pub fn with_key<'a>(cache: &'a [u16], key: &[u16]) -> Option<&'a [u16]> {
    cache.chunks_exact(PLACE).find(|p| p[0] != 0 && same(text(p, 0), key))
}
