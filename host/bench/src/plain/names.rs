//! Names and paths.

pub const BACKSLASH: u16 = 92;
const SLASH: u16 = 47;
const DOT: u16 = 46;

#[inline]
fn folded(u: u16) -> u16 {
    if u.wrapping_sub(65) < 26 { u + 32 } else { u }
}

/// Equal names of one length, unit by unit from the last on.
#[inline]
fn same_units(a: &[u16], b: &[u16]) -> bool {
    a.iter().rev().zip(b.iter().rev()).all(|(x, y)| x == y || folded(*x) == folded(*y))
}

/// Equal names: the last 16 units first, then all of them by the C library's comparison, then unit by unit.
#[inline]
pub fn same(a: &[u16], b: &[u16]) -> bool {
    a.len() == b.len() && (a.last_chunk::<16>() == b.last_chunk::<16>() && a == b || same_units(a, b))
}

// By calls, so that a look-up keeps its registers for what it does at every place.
#[inline(never)]
fn equal(a: &[u16], b: &[u16]) -> bool {
    a == b
}

#[inline(never)]
fn same_units_called(a: &[u16], b: &[u16]) -> bool {
    same_units(a, b)
}

/// Equal names of one length whose last units are known to be alike.
#[inline]
pub fn same_alike(a: &[u16], b: &[u16]) -> bool {
    equal(a, b) || same_units_called(a, b)
}

/// Whether the component that ends before `to` and begins at `from` is none, "." or "..".
#[inline]
fn bad_component(text: &[u16], from: usize, to: usize) -> bool {
    match to - from {
        0 => true,
        1 => text[from] == DOT,
        2 => text[from] == DOT && text[from + 1] == DOT,
        _ => false,
    }
}

/// The components of a text without leading or trailing backslash, 0 where one is bad.
pub fn components(text: &[u16]) -> usize {
    let (mut count, mut from) = (1, 0);
    for (i, u) in text.iter().enumerate() {
        if *u == BACKSLASH {
            if bad_component(text, from, i) {
                return 0;
            }
            count += 1;
            from = i + 1;
        } else if *u == 0 || *u == SLASH {
            return 0;
        }
    }
    if bad_component(text, from, text.len()) { 0 } else { count }
}

/// The components of a normalised path of at most 256 units, or 0.
pub fn path_components(path: &[u16]) -> usize {
    if path.len() > 256 || path.first() != Some(&BACKSLASH) { 0 } else { components(&path[1..]) }
}

/// One good component of at most 255 units.
pub fn good_name(name: &[u16]) -> bool {
    name.len() <= 255 && components(name) == 1
}

/// Where a path that is spelled with one or two leading backslashes and perhaps a trailing one has its body; None where it does not begin so.
pub fn body(text: &[u16]) -> Option<(usize, usize)> {
    if text.first() != Some(&BACKSLASH) {
        return None;
    }
    let from = if text.get(1) == Some(&BACKSLASH) { 2 } else { 1 };
    let to = if text.len() > from && text[text.len() - 1] == BACKSLASH { text.len() - 1 } else { text.len() };
    Some((from, to))
}
