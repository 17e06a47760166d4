//! What a cache holds, for people and programs to look at: include/dfsc.h has the layout.
use crate::caches::PLACE_UNITS;
use crate::text::Text;

const HEAD: usize = 32;
const ROOM: usize = 256;

/// One referral: a prefix and its targets.
#[derive(Clone, Debug, PartialEq, Eq)]
#[non_exhaustive]
pub struct ReferralEntry {
    /// Its place, from 0.
    pub place: usize,
    /// The prefix of the paths that it is for.
    pub prefix: Text,
    /// A root; else a link.
    pub root: bool,
    /// Its targets lie in another namespace.
    pub interlink: bool,
    /// TargetFailback.
    pub failback: bool,
    /// For how many seconds it holds.
    pub ttl: u32,
    /// The clock when it was taken.
    pub taken: u32,
    /// The target hinted at, from 0.
    pub hint: usize,
    /// The targets, 1 to 8.
    pub targets: Vec<Target>,
}

/// A target of a referral.
#[derive(Clone, Debug, PartialEq, Eq)]
#[non_exhaustive]
pub struct Target {
    /// Its path.
    pub path: Text,
    /// A target set begins with it; not told for the first.
    pub opens_set: bool,
}

/// One domain, and its DCs.
#[derive(Clone, Debug, PartialEq, Eq)]
#[non_exhaustive]
pub struct DomainEntry {
    /// Its place, from 0.
    pub place: usize,
    /// Its name.
    pub name: Text,
    /// The DC hinted at, from 0; 0 where there are none.
    pub hint: usize,
    /// The names of its DCs, 0 to 8.
    pub dcs: Vec<Text>,
}

impl ReferralEntry {
    /// Whether it has expired when the clock reads so.
    pub fn expired(&self, clock: u32) -> bool {
        clock.wrapping_sub(self.taken) >= self.ttl
    }
}

// The places of a cache that are in use. What a cache that is not in order says is shown as far as a place has room for it.
pub(crate) fn used(units: &[u16]) -> impl Iterator<Item = (usize, &[u16])> {
    units.chunks_exact(PLACE_UNITS).enumerate().filter(|(_, place)| place[0] != 0)
}

pub(crate) fn text(place: &[u16], number: usize) -> Text {
    let at = HEAD + number * ROOM;
    Text::of(&place[at..at + (place[number] as usize).min(ROOM)])
}

fn wide(place: &[u16], at: usize) -> u32 {
    place[at] as u32 | (place[at + 1] as u32) << 16
}

pub(crate) fn referral((place, units): (usize, &[u16])) -> ReferralEntry {
    ReferralEntry {
        place,
        prefix: text(units, 0),
        root: units[19] == 1,
        interlink: units[20] == 1,
        failback: units[21] == 1,
        ttl: wide(units, 22),
        taken: wide(units, 24),
        hint: units[10] as usize,
        targets: (0..units[9].min(8) as usize).map(|j| Target { path: text(units, 1 + j), opens_set: units[11 + j] == 1 }).collect(),
    }
}

pub(crate) fn domain((place, units): (usize, &[u16])) -> DomainEntry {
    DomainEntry { place, name: text(units, 0), hint: units[10] as usize, dcs: (0..units[9].min(8) as usize).map(|j| text(units, 1 + j)).collect() }
}
