//! The two caches: units that the host owns and lends to each call.
use crate::calls;
use crate::entries::{domain, referral, used, DomainEntry, ReferralEntry};
use crate::refusal::{listed, taken, Refusal};
use std::fmt;

/// The units of one place of a cache.
pub const PLACE_UNITS: usize = 2336;
/// The most places of a cache.
pub const MOST_PLACES: usize = 32;
// More units than the lines of one entry have: nine texts of 256 units, each escaped as five, beside keys and numbers.
const LISTED_UNITS: usize = 9 * (8 + 5 * 256) + 80;

/// The referrals that are known: for each prefix its targets, how long they hold, and which of them was used last.
#[derive(Clone, PartialEq, Eq)]
pub struct ReferralCache(Vec<u16>);

/// The domains that are known, and their DCs.
#[derive(Clone, PartialEq, Eq)]
pub struct DomainCache(Vec<u16>);

// Places and what is held, in place of thousands of units.
fn show(f: &mut fmt::Formatter, name: &str, units: &[u16], entries: impl Iterator<Item = impl fmt::Debug>) -> fmt::Result {
    let entries: Vec<_> = entries.collect();
    f.debug_struct(name).field("places", &(units.len() / PLACE_UNITS)).field("entries", &entries).finish()
}

impl fmt::Debug for ReferralCache {
    fn fmt(&self, f: &mut fmt::Formatter) -> fmt::Result {
        show(f, "ReferralCache", &self.0, self.entries())
    }
}

impl fmt::Debug for DomainCache {
    fn fmt(&self, f: &mut fmt::Formatter) -> fmt::Result {
        show(f, "DomainCache", &self.0, self.entries())
    }
}

fn empty(places: usize) -> Result<Vec<u16>, Refusal> {
    if (1..=MOST_PLACES).contains(&places) {
        Ok(vec![0; places * PLACE_UNITS])
    } else {
        Err(Refusal::NotInOrder)
    }
}

impl ReferralCache {
    /// An empty cache of 1 to 32 places.
    pub fn new(places: usize) -> Result<ReferralCache, Refusal> {
        empty(places).map(ReferralCache)
    }

    /// A cache from units that were saved. They are tested by each call that uses them.
    pub fn from_units(units: Vec<u16>) -> ReferralCache {
        ReferralCache(units)
    }

    /// Its units: include/dfsc.h has their layout.
    pub fn units(&self) -> &[u16] {
        &self.0
    }

    /// Its units, to be changed.
    pub fn units_mut(&mut self) -> &mut [u16] {
        &mut self.0
    }

    /// The entries, in place order.
    pub fn entries(&self) -> impl Iterator<Item = ReferralEntry> + '_ {
        used(&self.0).map(referral)
    }

    /// Expires every entry: its TTL becomes 0, and the next walk that uses it asks for it anew.
    pub fn expire_all(&mut self) -> Result<(), Refusal> {
        taken(calls::expire_all(&mut self.0))
    }

    /// Expires the entry whose prefix is equal to this path.
    pub fn expire(&mut self, path: &[u16]) -> Result<(), Refusal> {
        taken(calls::expire(&mut self.0, path))
    }

    /// Empties the cache.
    pub fn clear(&mut self) {
        self.0.fill(0);
    }

    /// The cache as text, in units: include/dfsc.h has its form.
    pub fn list(&self) -> Result<Vec<u16>, Refusal> {
        let mut out = vec![0; self.0.len() / PLACE_UNITS * LISTED_UNITS];
        let n = listed(calls::list(&self.0, &mut out))?;
        out.truncate(n);
        Ok(out)
    }

    /// Such a text in place of all that the cache holds.
    pub fn read(&mut self, text: &[u16]) -> Result<(), Refusal> {
        taken(calls::read(text, &mut self.0))
    }
}

impl DomainCache {
    /// An empty cache of 1 to 32 places.
    pub fn new(places: usize) -> Result<DomainCache, Refusal> {
        empty(places).map(DomainCache)
    }

    /// A cache from units that were saved. They are tested by each call that uses them.
    pub fn from_units(units: Vec<u16>) -> DomainCache {
        DomainCache(units)
    }

    /// Its units: include/dfsc.h has their layout.
    pub fn units(&self) -> &[u16] {
        &self.0
    }

    /// Its units, to be changed.
    pub fn units_mut(&mut self) -> &mut [u16] {
        &mut self.0
    }

    /// The entries, in place order.
    pub fn entries(&self) -> impl Iterator<Item = DomainEntry> + '_ {
        used(&self.0).map(domain)
    }

    /// The entry of a domain, by a name that is equal but for the case of A to Z.
    pub fn entry(&self, name: &[u16]) -> Option<DomainEntry> {
        let fold = |u: &u16| if (0x41..=0x5A).contains(u) { u + 32 } else { *u };
        self.entries().find(|d| d.name.iter().map(fold).eq(name.iter().map(fold)))
    }

    /// The hint of a domain to its next DC, from the last to the first.
    pub fn next_dc(&mut self, name: &[u16]) -> Result<(), Refusal> {
        taken(calls::next_dc(&mut self.0, name))
    }

    /// Empties the cache.
    pub fn clear(&mut self) {
        self.0.fill(0);
    }

    /// The request whose reply [`read`](DomainCache::read) takes.
    pub fn request() -> [u8; 4] {
        let mut request = [0; 4];
        assert_eq!(calls::domain_request(&mut request), 0, "a domain request has 4 bytes");
        request
    }

    /// A domain reply, asked for with this size, in place of all that the cache holds.
    pub fn read(&mut self, reply: &[u8], size: u32) -> Result<(), Refusal> {
        taken(calls::read_domains(reply, size, &mut self.0))
    }
}
