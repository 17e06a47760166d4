//! Lent memory and the model's values: caches as crates/cache/specs/places/Layout.antt lays them out, a walk as crates/walk_form/src/packed.rt and crates/walk_form/src/held.rt do.
use crate::rules::caches::{domains_in_order, referrals_in_order, Caches, Domain, Referral, Serves, Target};
use crate::rules::names::{components, good_path, matches, Text};
use crate::rules::walk::{good_settings, good_size, End, Kind, Party, Question, Rest, Walk};

pub use dfsc::{PLACE_UNITS as PLACE, WALK_UNITS as WALK};
const HEAD: usize = 32;
const ROOM: usize = 256;
const KINDS: [Kind; 5] = [Kind::Dc, Kind::Root, Kind::Link, Kind::Sysvol, Kind::Io];

pub fn kind_number(kind: Kind) -> u32 {
    1 + KINDS.iter().position(|k| *k == kind).unwrap() as u32
}

fn put_wide(units: &mut [u16], at: usize, v: u32) {
    units[at] = v as u16;
    units[at + 1] = (v >> 16) as u16;
}

fn wide(units: &[u16], at: usize) -> u32 {
    units[at] as u32 | (units[at + 1] as u32) << 16
}

fn put_text(place: &mut [u16], j: usize, text: &[u16]) {
    place[j] = text.len() as u16;
    place[HEAD + j * ROOM..][..text.len()].copy_from_slice(text);
}

fn text(place: &[u16], j: usize) -> Option<Text> {
    Some(place[HEAD + j * ROOM..][..ROOM].get(..place[j] as usize)?.to_vec())
}

fn put_referral(place: &mut [u16], e: &Referral) {
    put_text(place, 0, &e.prefix);
    for (j, t) in e.targets.iter().enumerate() {
        put_text(place, 1 + j, &t.path);
        place[11 + j] = t.boundary as u16;
    }
    place[9] = e.targets.len() as u16;
    place[10] = e.hint as u16;
    place[19] = (e.serves == Serves::Root) as u16;
    place[20] = e.interlink as u16;
    place[21] = e.failback as u16;
    put_wide(place, 22, e.ttl);
    put_wide(place, 24, e.taken);
}

fn put_domain(place: &mut [u16], d: &Domain) {
    put_text(place, 0, &d.name);
    for (j, dc) in d.dcs.iter().enumerate() {
        put_text(place, 1 + j, dc);
    }
    place[9] = d.dcs.len() as u16;
    place[10] = d.hint.unwrap_or(0) as u16;
}

pub fn referral_units(places: &[Option<Referral>]) -> Vec<u16> {
    let mut units = vec![0; places.len() * PLACE];
    for (place, e) in units.chunks_mut(PLACE).zip(places) {
        e.iter().for_each(|e| put_referral(place, e));
    }
    units
}

pub fn domain_units(places: &[Option<Domain>]) -> Vec<u16> {
    let mut units = vec![0; places.len() * PLACE];
    for (place, d) in units.chunks_mut(PLACE).zip(places) {
        d.iter().for_each(|d| put_domain(place, d));
    }
    units
}

fn listed(place: &[u16]) -> Option<Vec<Text>> {
    if place[9] > 8 {
        return None;
    }
    (1..=place[9] as usize).map(|j| text(place, j)).collect()
}

fn referral(place: &[u16]) -> Option<Referral> {
    let targets = listed(place)?.into_iter().enumerate().map(|(j, path)| Target { path, boundary: place[11 + j] == 1 }).collect();
    Some(Referral {
        prefix: text(place, 0)?,
        serves: if place[19] == 1 { Serves::Root } else { Serves::Link },
        interlink: place[20] == 1,
        failback: place[21] == 1,
        ttl: wide(place, 22),
        taken: wide(place, 24),
        targets,
        hint: place[10] as usize,
    })
}

fn domain(place: &[u16]) -> Option<Domain> {
    let dcs = listed(place)?;
    let hint = if dcs.is_empty() { None } else { Some(place[10] as usize) };
    Some(Domain { name: text(place, 0)?, dcs, hint })
}

/// The places of lent memory; none where its length is not that of places.
pub fn place_count(units: &[u16]) -> usize {
    if units.len() % PLACE == 0 { units.len() / PLACE } else { 0 }
}

// The entries of the places, free ones among them; None where one cannot be read.
fn entries<T>(units: &[u16], read: impl Fn(&[u16]) -> Option<T>) -> Option<Vec<Option<T>>> {
    units.chunks(PLACE).take(place_count(units)).map(|p| if p[0] == 0 { Some(None) } else { read(p).map(Some) }).collect()
}

/// A referral cache; None where it is not in order.
pub fn referrals(refs: &[u16]) -> Option<Vec<Option<Referral>>> {
    // unused room is zero: the memory is what the entries read from it write
    entries(refs, referral).filter(|places| referrals_in_order(places) && referral_units(places) == refs)
}

/// A domain cache; None where it is not in order.
pub fn domains(doms: &[u16]) -> Option<Vec<Option<Domain>>> {
    entries(doms, domain).filter(|places| domains_in_order(places) && domain_units(places) == doms)
}

/// The caches; None where one of them is not in order.
pub fn caches(refs: &[u16], doms: &[u16]) -> Option<Caches> {
    Some(Caches { referrals: referrals(refs)?, domains: domains(doms)? })
}

fn put_question(units: &mut [u16], q: &Question) {
    units[9] = kind_number(q.kind) as u16;
    let domain = matches!(q.kind, Kind::Dc | Kind::Root | Kind::Sysvol);
    // a domain's name is counted with the backslash before it, as it stands in the path
    units[10] = q.entry.as_ref().map_or(0, |e| e.len() + domain as usize) as u16;
    if let Party::Listed { place, began } = q.party {
        units[11] = place as u16;
        units[12] = began as u16;
    }
    put_wide(units, 13, q.size);
    units[15] = q.covered as u16;
}

pub fn walk_units(w: &Walk) -> Vec<u16> {
    let mut units = vec![0; WALK];
    put_wide(&mut units, 0, w.limit);
    put_wide(&mut units, 2, w.size);
    units[4] = w.boot.len() as u16;
    units[5] = w.moves as u16;
    units[6] = w.path.len() as u16;
    units[8] = w.in_dfs as u16;
    let tried = match &w.rest {
        Rest::Asks(q) => {
            put_question(&mut units, q);
            q.tried.as_ref()
        }
        Rest::Ends(e) => {
            units[9] = e.number as u16;
            put_wide(&mut units, 13, e.status);
            e.tried.as_ref()
        }
    };
    let tried = tried.cloned().unwrap_or_default();
    units[7] = tried.len() as u16;
    for (at, text) in [(HEAD, &w.path), (HEAD + ROOM, &tried), (HEAD + 2 * ROOM, &w.boot)] {
        units[at..at + text.len()].copy_from_slice(text);
    }
    units
}

fn question(units: &[u16], path: &[u16], tried: Option<Text>) -> Option<Question> {
    let kind = *KINDS.get((units[9] as usize).checked_sub(1)?)?;
    let entry = path.get(..units[10] as usize)?;
    let listed = Party::Listed { place: units[11] as usize, began: units[12] as usize };
    let domain = || {
        let name = components(path)[0];
        (entry.len() == 1 + name.len()).then(|| Some(name.to_vec()))
    };
    let prefix = || (good_path(entry, 2) && matches(entry, path)).then(|| Some(entry.to_vec()));
    let (entry, party) = match kind {
        Kind::Dc => (domain()?, Party::Bootstrap),
        Kind::Root if entry.is_empty() => (None, Party::Host),
        Kind::Root => (domain()?, listed),
        // one party and no round
        Kind::Sysvol if units[11] != units[12] => return None,
        Kind::Sysvol => (domain()?, listed),
        Kind::Link | Kind::Io => (prefix()?, listed),
    };
    let size = wide(units, 13);
    let covered = units[15] == 1;
    let sized = if kind == Kind::Io { size == 0 } else { good_size(size) };
    let good = sized && (!covered || kind == Kind::Link) && tried.is_some() == (kind == Kind::Io);
    good.then_some(Question { kind, entry, party, size, tried, covered })
}

fn end(units: &[u16], tried: Option<Text>) -> Option<End> {
    let (number, status) = (units[9] as u32, wide(units, 13));
    let good = (20..=27).contains(&number) && (status == 0 || [20, 22, 23].contains(&number)) && tried.is_some() == (number == 20);
    good.then_some(End { number, status, tried })
}

/// The walk; None where it is out of form.
pub fn walk(units: &[u16]) -> Option<Walk> {
    walk_with(units, 2)
}

/// Whether the walk is out of form by nothing but that it waits with a path of one component.
pub fn lacks_components(units: &[u16]) -> bool {
    walk_with(units, 2).is_none() && walk_with(units, 1).is_some()
}

// The walk whose path has so many components at least while it waits.
fn walk_with(units: &[u16], least: usize) -> Option<Walk> {
    if units.len() != WALK {
        return None;
    }
    let text = |room: usize, length: u16| units[HEAD + room * ROOM..][..ROOM].get(..length as usize).map(<[u16]>::to_vec);
    let (path, tried, boot) = (text(0, units[6])?, text(1, units[7])?, text(2, units[4])?);
    let tried = if tried.is_empty() { None } else { Some(tried) };
    let waits = units[9] <= 5;
    if !good_path(&path, if waits { least } else { 1 }) || tried.as_ref().is_some_and(|t| !good_path(t, 1)) {
        return None;
    }
    let rest = if waits { Rest::Asks(question(units, &path, tried)?) } else { Rest::Ends(end(units, tried)?) };
    let walk = Walk { limit: wide(units, 0), size: wide(units, 2), boot, moves: units[5] as u32, path, in_dfs: units[8] == 1, rest };
    let good = good_settings(walk.limit, walk.size, &walk.boot) && walk.moves <= walk.limit;
    (good && walk_units(&walk) == units).then_some(walk)
}
