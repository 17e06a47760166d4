//! What a reply leaves in the caches.
use super::caches::{good_count, Caches, Domain, Referral, Target};
use super::names::{equal, Text};
use super::replies::{read_domains, Read, Reply};

/// The same targets, each as often, in any order.
fn same_targets(a: &[&Target], b: &[&Target]) -> bool {
    let mut left = b.to_vec();
    a.len() == b.len()
        && a.iter().all(|t| match left.iter().position(|u| equal(&t.path, &u.path)) {
            Some(i) => {
                left.swap_remove(i);
                true
            }
            None => false,
        })
}

/// The target sets, in order.
fn sets(targets: &[Target]) -> Vec<Vec<&Target>> {
    let mut all: Vec<Vec<&Target>> = vec![vec![]];
    for t in targets {
        if t.boundary {
            all.push(vec![]);
        }
        all.last_mut().unwrap().push(t);
    }
    all
}

/// Version 4 goes set by set, version 3 without regard to sets.
fn equivalent(version: u16, held: &[Target], new: &[Target]) -> bool {
    if version == 4 {
        let (a, b) = (sets(held), sets(new));
        return a.len() == b.len() && a.iter().zip(&b).all(|(x, y)| same_targets(x, y));
    }
    same_targets(&held.iter().collect::<Vec<_>>(), &new.iter().collect::<Vec<_>>())
}

fn refresh(entry: &mut Referral, reply: Reply, now: u32) {
    let hinted = entry.targets[entry.hint].path.clone();
    if !equivalent(reply.version, &entry.targets, &reply.targets) {
        entry.targets = reply.targets;
    }
    entry.hint = entry.targets.iter().position(|t| equal(&t.path, &hinted)).unwrap_or(0);
    let in_first_set = !entry.targets[..=entry.hint].iter().any(|t| t.boundary);
    if reply.failback && !in_first_set {
        entry.hint = 0;
    }
    entry.serves = reply.serves;
    entry.interlink = reply.interlink;
    entry.failback = reply.failback;
    entry.ttl = reply.ttl;
    entry.taken = now;
}

/// The lowest free place; if none, that of the entry of greatest age, the lowest among equals.
fn place_for_new(places: &[Option<Referral>], now: u32) -> usize {
    if let Some(free) = places.iter().position(Option::is_none) {
        return free;
    }
    let ages: Vec<u32> = places.iter().flatten().map(|e| e.age(now)).collect();
    let oldest = ages.iter().max().unwrap();
    ages.iter().position(|a| a == oldest).unwrap()
}

/// A reply into the referral cache; the entry as it is then.
pub fn store(caches: &mut Caches, reply: Reply, now: u32) -> Referral {
    let prefix = reply.prefix.clone();
    if let Some(entry) = caches.with_prefix(&prefix) {
        refresh(entry, reply, now);
        return entry.clone();
    }
    let entry = Referral {
        prefix,
        serves: reply.serves,
        interlink: reply.interlink,
        failback: reply.failback,
        ttl: reply.ttl,
        taken: now,
        targets: reply.targets,
        hint: 0,
    };
    let place = place_for_new(&caches.referrals, now);
    caches.referrals[place] = Some(entry.clone());
    entry
}

pub fn store_dcs(domain: &mut Domain, dcs: Vec<Text>) {
    domain.dcs = dcs;
    domain.hint = Some(0);
}

/// A domain reply into a domain cache of so many places: its content then, or a refusal.
pub fn domains_after(reply: &[u8], size: u32, places: usize) -> Result<Vec<Option<Domain>>, u32> {
    if !good_count(places) {
        return Err(4);
    }
    if !(1024..=57344).contains(&size) {
        return Err(3);
    }
    let Read::Holds(names) = read_domains(reply, size) else {
        return Err(7);
    };
    if names.len() > places {
        return Err(6);
    }
    let mut after: Vec<Option<Domain>> = names.into_iter().map(|name| Some(Domain { name, dcs: vec![], hint: None })).collect();
    after.resize(places, None);
    Ok(after)
}
