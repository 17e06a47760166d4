//! A start: the tests, the steps up to the first question or the end, and the walk as it is packed.
use super::caches::{domains_in_order, find, referrals_in_order, text, with_key, HEAD, ROOM};
use super::names::{body, components, good_name, same, BACKSLASH};
use dfsc::{PLACE_UNITS as PLACE, WALK_UNITS};

const DC: u16 = 1;
const ROOT: u16 = 2;
const LINK: u16 = 3;
const SYSVOL: u16 = 4;
const IO: u16 = 5;
const NAMES: [[u16; 8]; 2] = [[115, 121, 115, 118, 111, 108, 0, 0], [110, 101, 116, 108, 111, 103, 111, 110]];

/// What the walk rests at: a question (kind, entry, party) or the number of an end.
struct Rest {
    what: u16,
    entry: usize,
    party: u16,
}

struct Walk {
    path: [u16; 256],
    units: usize,
    tried: [u16; 256],
    tried_units: usize,
    moves: u32,
    hit: bool,
}

// The units of the first n components of a path that has them.
fn first(path: &[u16], n: usize) -> usize {
    let mut seen = 0;
    for (i, u) in path.iter().enumerate() {
        if *u == BACKSLASH {
            if seen == n {
                return i;
            }
            seen += 1;
        }
    }
    path.len()
}

// The target in place of the first units of the path; 0 where it does not fit.
fn replaced(path: &[u16], prefix: usize, target: &[u16], out: &mut [u16; 256]) -> usize {
    let rest = &path[prefix..];
    let n = target.len() + rest.len();
    if n > 256 {
        return 0;
    }
    out[..target.len()].copy_from_slice(target);
    out[target.len()..n].copy_from_slice(rest);
    n
}

fn end(number: u16) -> Rest {
    Rest { what: number, entry: 0, party: 0 }
}

impl Walk {
    fn path(&self) -> &[u16] {
        &self.path[..self.units]
    }

    fn sysvol(&self) -> bool {
        let (one, two) = (first(self.path(), 1), first(self.path(), 2));
        let second = &self.path[one + 1..two];
        same(second, &NAMES[0][..6]) || same(second, &NAMES[1])
    }

    fn put(&mut self, limit: u32, what: u16, entry: usize, party: u16) -> Rest {
        if self.moves >= limit {
            return end(24);
        }
        self.moves += 1;
        Rest { what, entry, party }
    }

    fn step_5(&mut self, doms: &[u16], limit: u32) -> Rest {
        let name = first(self.path(), 1);
        match with_key(doms, &self.path[1..name]) {
            None => self.put(limit, ROOT, 0, 0),
            Some(d) if d[9] == 0 => self.put(limit, DC, name, 0),
            Some(d) if self.sysvol() => self.put(limit, SYSVOL, name, d[10]),
            Some(d) => self.put(limit, ROOT, name, d[10]),
        }
    }

    fn step_9(&mut self, refs: &[u16], doms: &[u16], limit: u32) -> Rest {
        let two = first(self.path(), 2);
        match with_key(refs, &self.path[..two]) {
            Some(e) if e[19] == 1 => self.put(limit, LINK, two, e[10]),
            _ => self.step_5(doms, limit),
        }
    }

    fn steps(&mut self, refs: &[u16], doms: &[u16], limit: u32, clock: u32) -> Rest {
        loop {
            let Some(i) = find(refs, self.path()) else {
                return self.step_5(doms, limit);
            };
            self.hit = true;
            let e = &refs[i * PLACE..][..PLACE];
            let wide = |at: usize| e[at] as u32 | (e[at + 1] as u32) << 16;
            let (root, expired) = (e[19] == 1, clock.wrapping_sub(wide(24)) >= wide(22));
            if expired {
                return if root { self.step_5(doms, limit) } else { self.step_9(refs, doms, limit) };
            }
            if self.moves >= limit {
                return end(24);
            }
            let (hint, prefix) = (e[10], e[0] as usize);
            self.tried_units = replaced(&self.path[..self.units], prefix, text(e, 1 + hint as usize), &mut self.tried);
            if self.tried_units == 0 {
                return end(26);
            }
            self.moves += 1;
            if root || e[20] == 0 || self.sysvol() {
                return Rest { what: IO, entry: prefix, party: hint };
            }
            self.path[..self.tried_units].copy_from_slice(&self.tried[..self.tried_units]);
            self.units = self.tried_units;
            self.tried_units = 0;
        }
    }
}

#[allow(clippy::too_many_arguments)]
pub fn start(refs: &[u16], doms: &[u16], walk: &mut [u16], path: &[u16], boot: &[u16], limit: u32, size: u32, clock: u32, out: &mut [u8]) -> u32 {
    if !referrals_in_order(refs) || !domains_in_order(doms) {
        return 4;
    }
    let Some((from, to)) = body(path) else { return 1 };
    let count = if from <= to { components(&path[from..to]) } else { 0 };
    if count == 0 {
        return 1;
    }
    if to - from > 255 {
        return 2;
    }
    if !(1..=64).contains(&limit) || !(1024..=57344).contains(&size) || !good_name(boot) {
        return 3;
    }
    if walk.len() != WALK_UNITS {
        return 5;
    }
    let mut w = Walk { path: [0; 256], units: 1 + to - from, tried: [0; 256], tried_units: 0, moves: 0, hit: false };
    w.path[0] = BACKSLASH;
    w.path[1..w.units].copy_from_slice(&path[from..to]);
    let rest = if count == 1 { end(21) } else { w.steps(refs, doms, limit, clock) };
    if rest.what != IO {
        w.tried_units = 0;
    }
    if rest.what < IO {
        let name = match rest.what {
            DC => first(w.path(), 1),
            LINK => w.units,
            _ => first(w.path(), 2),
        };
        if out.len() < 4 + 2 * name {
            return 10;
        }
        out[..2].copy_from_slice(&[4, 0]);
        for (b, u) in out[2..].chunks_exact_mut(2).zip(&w.path[..name]) {
            b.copy_from_slice(&u.to_le_bytes());
        }
        out[2 + 2 * name..4 + 2 * name].copy_from_slice(&[0, 0]);
    }
    walk.fill(0);
    walk[0] = limit as u16;
    walk[2] = size as u16;
    walk[4] = boot.len() as u16;
    walk[5] = w.moves as u16;
    walk[6] = w.units as u16;
    walk[7] = w.tried_units as u16;
    walk[8] = w.hit as u16;
    walk[9] = rest.what;
    walk[10] = rest.entry as u16;
    // a round begins with its first party
    walk[11] = rest.party;
    walk[12] = rest.party;
    walk[13] = if rest.what < IO { size as u16 } else { 0 };
    walk[HEAD..HEAD + w.units].copy_from_slice(w.path());
    walk[HEAD + ROOM..][..w.tried_units].copy_from_slice(&w.tried[..w.tried_units]);
    walk[HEAD + 2 * ROOM..][..boot.len()].copy_from_slice(boot);
    0
}
