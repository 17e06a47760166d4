//! A reply to a root, link or SYSVOL request, read once from front to back.
use super::names::BACKSLASH;

pub const NOTHING: u64 = 1;
pub const SAYS: u64 = 2;

/// A normalised path in the reply: where it begins, and its units.
#[derive(Clone, Copy, Default)]
pub struct Span {
    pub from: usize,
    pub units: usize,
}

/// What is found; all 0 where the reply is malformed.
#[derive(Default)]
pub struct Found {
    pub answer: u64,
    pub version: u16,
    pub bits: u64,
    pub count: u16,
    pub ttl: u32,
    pub prefix: Span,
    pub targets: usize,
    pub kept: [(Span, bool); 8],
}

#[inline]
fn u16_at(r: &[u8], at: usize) -> Option<u16> {
    Some(u16::from_le_bytes([*r.get(at)?, *r.get(at + 1)?]))
}

#[inline]
fn folded(u: u16) -> u16 {
    if u.wrapping_sub(65) < 26 { u + 32 } else { u }
}

// The good path of 2 components or more whose string begins here: its units are looked at once.
fn path(r: &[u8], at: usize) -> Option<Span> {
    if u16_at(r, at)? != BACKSLASH {
        return None;
    }
    let from = if u16_at(r, at + 2)? == BACKSLASH { at + 2 } else { at };
    // of the component under way: its units, and whether all of them are dots
    let (mut i, mut units, mut components, mut length, mut dots) = (from + 2, 1, 0, 0, true);
    loop {
        let u = u16_at(r, i)?;
        if u == BACKSLASH || u == 0 {
            if length == 0 && u == 0 && components > 0 {
                // one trailing backslash
                units -= 1;
                break;
            }
            if length == 0 || dots && length <= 2 {
                return None;
            }
            components += 1;
            if u == 0 {
                break;
            }
            (length, dots) = (0, true);
        } else if u == 47 {
            return None;
        } else {
            length += 1;
            dots &= u == 46;
        }
        units += 1;
        i += 2;
    }
    (components >= 2 && units <= 256).then_some(Span { from, units })
}

fn same(r: &[u8], a: Span, b: Span) -> bool {
    a.units == b.units && r[a.from..a.from + 2 * a.units].chunks_exact(2).zip(r[b.from..b.from + 2 * b.units].chunks_exact(2)).all(|(x, y)| {
        let (x, y) = (u16::from_le_bytes([x[0], x[1]]), u16::from_le_bytes([y[0], y[1]]));
        x == y || folded(x) == folded(y)
    })
}

fn matches(r: &[u8], prefix: Span, asked: &[u16]) -> bool {
    let n = prefix.units;
    n <= asked.len()
        && (n == asked.len() || asked[n] == BACKSLASH)
        && r[prefix.from..prefix.from + 2 * n].chunks_exact(2).zip(asked).all(|(x, y)| folded(u16::from_le_bytes([x[0], x[1]])) == folded(*y))
}

fn entries(r: &[u8], asked: &[u16], count: u16) -> Option<Found> {
    let flags = u16_at(r, 4)? as u64;
    let mut f = Found { answer: SAYS, count, ..Found::default() };
    let mut kind = 0;
    let mut at = 8;
    for i in 0..count as usize {
        let fixed = r.get(at..at + 34)?;
        let field = |k: usize| u16::from_le_bytes([fixed[k], fixed[k + 1]]);
        let (version, size, server_type, marks) = (field(0), field(2) as usize, field(4), field(6));
        if size < 34 || at + size > r.len() || marks & 2 != 0 {
            return None;
        }
        let named = path(r, at + field(12) as usize)?;
        let target = path(r, at + field(16) as usize)?;
        if i == 0 {
            if !(version == 3 || version == 4) || server_type > 1 || !matches(r, named, asked) {
                return None;
            }
            (f.version, kind, f.prefix) = (version, server_type, named);
            f.ttl = field(8) as u32 | (field(10) as u32) << 16;
        } else if version != f.version || server_type != kind || !same(r, named, f.prefix) {
            return None;
        }
        if i < 8 {
            f.kept[i] = (target, i > 0 && version == 4 && marks & 4 != 0);
            f.targets = i + 1;
        }
        at += size;
    }
    f.bits = (kind == 1) as u64 | (flags & 1) << 1 | (flags & 2) << 1 | if f.version == 4 { (flags & 4) << 1 } else { 0 };
    Some(f)
}

pub fn read(r: &[u8], size: u32, asked: &[u16]) -> Found {
    if r.len() > size as usize || r.len() < 8 {
        return Found::default();
    }
    match u16::from_le_bytes([r[2], r[3]]) {
        0 => Found { answer: NOTHING, ..Found::default() },
        n => entries(r, asked, n).unwrap_or_default(),
    }
}
