//! The two caches.
use super::names::{equal, good_name, good_path, matches, Text};

pub const MOST_LISTED: usize = 8;

#[derive(Clone, Debug, PartialEq)]
pub struct Target {
    pub path: Text,
    /// A set begins here; none is held for the first target.
    pub boundary: bool,
}

#[derive(Clone, Copy, Debug, PartialEq)]
pub enum Serves {
    Root,
    Link,
}

#[derive(Clone, Debug, PartialEq)]
pub struct Referral {
    pub prefix: Text,
    pub serves: Serves,
    pub interlink: bool,
    pub failback: bool,
    pub ttl: u32,
    pub taken: u32,
    pub targets: Vec<Target>,
    pub hint: usize,
}

#[derive(Clone, Debug, PartialEq)]
pub struct Domain {
    pub name: Text,
    pub dcs: Vec<Text>,
    /// Not valid exactly where there are no DCs.
    pub hint: Option<usize>,
}

#[derive(Clone, Debug, PartialEq)]
pub struct Caches {
    pub referrals: Vec<Option<Referral>>,
    pub domains: Vec<Option<Domain>>,
}

impl Referral {
    pub fn age(&self, now: u32) -> u32 {
        now.wrapping_sub(self.taken)
    }

    pub fn expired(&self, now: u32) -> bool {
        self.age(now) >= self.ttl
    }

    pub fn good(&self) -> bool {
        good_path(&self.prefix, 2)
            && (1..=MOST_LISTED).contains(&self.targets.len())
            && self.targets.iter().all(|t| good_path(&t.path, 2))
            && !self.targets[0].boundary
            && self.hint < self.targets.len()
    }
}

impl Domain {
    pub fn good(&self) -> bool {
        good_name(&self.name)
            && self.dcs.len() <= MOST_LISTED
            && self.dcs.iter().all(|d| good_name(d))
            && match self.hint {
                None => self.dcs.is_empty(),
                Some(h) => h < self.dcs.len(),
            }
    }
}

fn no_two_equal(keys: &[&Text]) -> bool {
    keys.iter().enumerate().all(|(i, a)| keys[..i].iter().all(|b| !equal(a, b)))
}

/// Places that a cache may have.
pub fn good_count(places: usize) -> bool {
    (1..=32).contains(&places)
}

/// Entries of a referral cache: each is good, and no two prefixes are equal.
pub fn good_referrals<'a>(entries: impl Iterator<Item = &'a Referral> + Clone) -> bool {
    entries.clone().all(Referral::good) && no_two_equal(&entries.map(|e| &e.prefix).collect::<Vec<_>>())
}

pub fn referrals_in_order(places: &[Option<Referral>]) -> bool {
    good_count(places.len()) && good_referrals(places.iter().flatten())
}

pub fn domains_in_order(places: &[Option<Domain>]) -> bool {
    let entries = places.iter().flatten();
    good_count(places.len()) && entries.clone().all(Domain::good) && no_two_equal(&entries.map(|d| &d.name).collect::<Vec<_>>())
}

impl Caches {
    /// The longest match.
    pub fn find(&self, path: &[u16]) -> Option<&Referral> {
        self.referrals.iter().flatten().filter(|e| matches(&e.prefix, path)).max_by_key(|e| e.prefix.len())
    }

    pub fn with_prefix(&mut self, prefix: &[u16]) -> Option<&mut Referral> {
        self.referrals.iter_mut().flatten().find(|e| equal(&e.prefix, prefix))
    }

    pub fn domain(&mut self, name: &[u16]) -> Option<&mut Domain> {
        self.domains.iter_mut().flatten().find(|d| equal(&d.name, name))
    }
}
