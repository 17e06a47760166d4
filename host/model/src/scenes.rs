//! What a scene is made of: caches, paths, settings, replies as a server would send them, and damage.
use crate::random::Random;
use crate::rules::caches::{Caches, Domain, Referral, Serves, Target};
use crate::rules::names::{ascii, components, equal, first, normalised, Text, BACKSLASH};
use crate::rules::walk::{Kind, Party, Question, Rest, Walk, BUFFER_OVERFLOW, NEXT_TARGET, PATH_NOT_COVERED};

const FIRST: [&str; 8] = ["corp", "a", "files", "nas1", "Dfs", "A", "k[", "k@"];
const SECOND: [&str; 8] = ["s1", "s10", "dfs", "SYSVOL", "NetLogon", "leak", "b", "b"];
const THIRD: [&str; 7] = ["d", "E", "s1", "s10", "\u{c9}z", "...", "~}\u{7f} !"];
const DCS: [&str; 5] = ["dc1", "dc2", "DC3", "dc4.corp.example", "\u{ffff}"];
const STATUSES: [u32; 10] = [0, 1, 0x4000_0000, 0x7FFF_FFFF, 0x8000_0006, 0x8000_0000, 0xC000_0001, 0xC000_003A, 0xC000_0225, 0xFFFF_FFFF];

/// Letters in another case here and there, and units that only look like letters in another case.
pub fn respelled(r: &mut Random, text: &[u16]) -> Text {
    let often = r.one_of(&[0, 0, 30, 100]);
    let letter = |u: u16| (0x41..=0x5A).contains(&(u & !32));
    let like_a_letter = |u: u16| [0x40, 0x5B, 0xC9].contains(&(u & !32));
    text.iter().map(|u| if (letter(*u) || like_a_letter(*u) && r.in_hundred(8)) && r.in_hundred(often) { u ^ 32 } else { *u }).collect()
}

fn component(r: &mut Random, words: &[&str]) -> Text {
    if r.in_hundred(2) {
        let long = r.one_of(&[60, 120, 200, 254, 255, 256]);
        return vec![b'q' as u16; long];
    }
    let word = ascii(r.one_of(words));
    respelled(r, &word)
}

/// A normalised path of at least 2 components, as a cache may hold it.
pub fn good_path(r: &mut Random, most: usize) -> Text {
    let count = 2 + r.below(most - 1);
    let mut path = vec![];
    for i in 0..count {
        let c = component(r, [&FIRST[..], &SECOND[..], &THIRD[..]][i.min(2)]);
        if path.len() + c.len() < 256 {
            path.push(BACKSLASH);
            path.extend(c);
        }
    }
    if path.is_empty() || components(&path).len() < 2 {
        return ascii("\\a\\b");
    }
    path
}

fn dc_name(r: &mut Random) -> Text {
    let mut name = component(r, &DCS);
    name.truncate(255);
    name
}

/// A target, so long now and then that what follows it does not fit.
fn target_path(r: &mut Random) -> Text {
    let mut path = good_path(r, 3);
    if r.in_hundred(3) {
        path.truncate(200);
        while path.last() == Some(&BACKSLASH) {
            path.pop();
        }
        path.push(BACKSLASH);
        path.resize(r.one_of(&[250, 254, 255, 256]), b't' as u16);
    }
    path
}

// Some of them stand there more than once.
fn targets(r: &mut Random, most: usize) -> Vec<Target> {
    let count = 1 + r.below(most);
    let (boundaries, repeated) = (r.one_of(&[0, 30, 60]), r.one_of(&[0, 0, 60]));
    let mut list: Vec<Target> = vec![];
    for i in 0..count {
        let path = if i > 0 && r.in_hundred(repeated) { r.one_of(&list).path } else { target_path(r) };
        list.push(Target { path, boundary: i > 0 && r.in_hundred(boundaries) });
    }
    list
}

fn ttl(r: &mut Random) -> u32 {
    let any = r.next() as u32;
    r.one_of(&[0, 1, 10, 300, 300, 300, 1800, u32::MAX, any])
}

pub fn referral(r: &mut Random, now: u32) -> Referral {
    let ttl = ttl(r);
    let any = r.next() as u32;
    let age = r.one_of(&[0, 0, 1, 5, ttl.wrapping_sub(1), ttl, ttl.wrapping_add(1), any]);
    let targets = targets(r, 8);
    let hint = r.below(targets.len());
    let serves = r.one_of(&[Serves::Root, Serves::Link]);
    let prefix = good_path(r, if serves == Serves::Root { 2 } else { 4 });
    Referral { prefix, serves, interlink: r.in_hundred(35), failback: r.in_hundred(40), ttl, taken: now.wrapping_sub(age), targets, hint }
}

fn domain(r: &mut Random) -> Domain {
    let mut name = component(r, &FIRST);
    name.truncate(255);
    let count = r.one_of(&[0, 0, 1, 2, 3, 5, 8]);
    let dcs: Vec<Text> = (0..count).map(|_| dc_name(r)).collect();
    let hint = if count == 0 { None } else { Some(r.below(count)) };
    Domain { name, dcs, hint }
}

fn place_count(r: &mut Random) -> usize {
    match r.below(100) {
        0 => 32,
        1..=5 => 1 + r.below(16),
        _ => 1 + r.below(5),
    }
}

pub fn caches(r: &mut Random, now: u32) -> Caches {
    let full = r.one_of(&[0, 40, 80, 100]);
    let mut caches = Caches { referrals: vec![None; place_count(r)], domains: vec![None; place_count(r)] };
    for i in 0..caches.referrals.len() {
        let e = referral(r, now);
        if r.in_hundred(full) && e.good() && caches.with_prefix(&e.prefix).is_none() {
            caches.referrals[i] = Some(e);
        }
    }
    for i in 0..caches.domains.len() {
        let d = domain(r);
        if r.in_hundred(full / 2) && d.good() && caches.domain(&d.name).is_none() {
            caches.domains[i] = Some(d);
        }
    }
    caches
}

pub fn clock(r: &mut Random) -> u32 {
    let any = r.next() as u32;
    r.one_of(&[100, 0, 1, 0x7FFF_FFFF, u32::MAX - 5, u32::MAX, any])
}

// Another spelling of the same path now and then, or a bad or long one.
fn misspell(r: &mut Random, path: &mut Text) {
    match r.below(60) {
        0 => path.insert(0, BACKSLASH),
        1 | 2 => path.push(BACKSLASH),
        3 => *path = first(path, 1),
        4 => {
            path.remove(0);
        }
        5 => path.truncate(1),
        6 => {
            let at = r.below(path.len());
            path[at] = r.one_of(&[0, b'/' as u16, b'.' as u16, BACKSLASH]);
        }
        7 => path.extend(ascii(r.one_of(&["\\.", "\\..", "\\\\", "\\...", "\\"]))),
        8 => path.resize(r.one_of(&[256, 257, 258, 300]).max(path.len()), b'z' as u16),
        9 => {
            let n = r.below(4);
            *path = vec![BACKSLASH; n];
        }
        _ => {}
    }
}

/// A path that a host may give: mostly good, often one that the cache matches.
pub fn path(r: &mut Random, caches: Option<&Caches>) -> Text {
    let prefixes: Vec<Text> = caches.map_or(vec![], |c| c.referrals.iter().flatten().map(|e| e.prefix.clone()).collect());
    let names: Vec<Text> = caches.map_or(vec![], |c| c.domains.iter().flatten().map(|d| d.name.clone()).collect());
    let mut path = match r.below(10) {
        0..=4 if !prefixes.is_empty() => {
            let prefix = r.one_of(&prefixes);
            respelled(r, &prefix)
        }
        5..=7 if !names.is_empty() => {
            let mut p = vec![BACKSLASH];
            p.extend(r.one_of(&names));
            p.push(BACKSLASH);
            p.extend(component(r, &SECOND));
            p
        }
        _ => good_path(r, 4),
    };
    for _ in 0..r.one_of(&[0, 0, 1, 1, 2]) {
        path.push(BACKSLASH);
        path.extend(component(r, &THIRD));
    }
    for _ in 0..r.one_of(&[1, 1, 2, 3]) {
        if !path.is_empty() {
            misspell(r, &mut path);
        }
    }
    path
}

pub fn boot(r: &mut Random) -> Text {
    match r.below(60) {
        0 => vec![],
        1 => ascii("\\dc1"),
        2 => ascii(".."),
        3 => vec![b'k' as u16; 256],
        4 => vec![b'k' as u16; 255],
        _ => ascii("dc9"),
    }
}

pub fn limit(r: &mut Random) -> u32 {
    let any = r.next() as u32;
    match r.below(60) {
        0 => r.one_of(&[0, 65, any, 65537]),
        1..=20 => 1 + r.below(5) as u32,
        _ => 1 + r.below(64) as u32,
    }
}

pub fn size(r: &mut Random) -> u32 {
    let any = r.next() as u32;
    match r.below(60) {
        0 => r.one_of(&[0, 1023, 57345, any, 65536 + 8192]),
        1..=9 => 1024 + r.below(57344 - 1023) as u32,
        _ => r.one_of(&[1024, 4096, 8192, 8192, 30000, 57344]),
    }
}

pub fn status(r: &mut Random, kind: Option<Kind>) -> u32 {
    let any = r.next() as u32;
    let close = r.one_of(&[PATH_NOT_COVERED, BUFFER_OVERFLOW, NEXT_TARGET[0], NEXT_TARGET[5], 0xC000_0256, 0xC000_00B6, any]);
    match (r.below(20), kind) {
        (0, _) => close,
        (1, _) => r.one_of(&STATUSES),
        (2..=7, Some(Kind::Io)) => r.one_of(&NEXT_TARGET),
        (8..=12, Some(Kind::Io)) => PATH_NOT_COVERED,
        (2..=4, Some(Kind::Dc | Kind::Root | Kind::Link | Kind::Sysvol)) => BUFFER_OVERFLOW,
        (5..=7, Some(Kind::Root | Kind::Link)) => r.one_of(&[0xC000_0001, 0xC000_0225, 0x8000_0006]),
        _ => r.one_of(&[0, 0, 0, 0, 1, 0x4000_0016]),
    }
}

fn put(bytes: &mut Vec<u8>, units: &[u16]) {
    bytes.extend(units.iter().flat_map(|u| u.to_le_bytes()));
}

fn put_string(bytes: &mut Vec<u8>, text: &[u16]) {
    put(bytes, text);
    put(bytes, &[0]);
}

fn set(bytes: &mut [u8], at: usize, v: usize) {
    bytes[at..at + 2].copy_from_slice(&(v as u16).to_le_bytes());
}

fn header(r: &mut Random, count: usize, flags: u32) -> Vec<u8> {
    let mut bytes = vec![];
    put(&mut bytes, &[r.below(65536) as u16, count as u16, flags as u16, (flags >> 16) as u16]);
    bytes
}

/// An entry of a reply: its fixed part and the strings that its fields (each at an offset in it) lead to.
struct Entry {
    fixed: Vec<u8>,
    strings: Vec<(usize, Vec<u8>)>,
}

// Strings stand in their entry, or after the last one; at odd offsets now and then.
fn laid_out(r: &mut Random, mut bytes: Vec<u8>, entries: Vec<Entry>) -> Vec<u8> {
    let inside = r.in_hundred(50);
    let pad = r.one_of(&[0, 0, 0, 1, 2, 5]);
    let mut later: Vec<(usize, usize, Vec<u8>)> = vec![];
    let mut last = (0, 0);
    for e in entries {
        let at = bytes.len();
        last = (at, e.fixed.len());
        bytes.extend(&e.fixed);
        bytes.extend(vec![0xA7; pad]);
        for (field, string) in e.strings {
            if inside {
                let offset = bytes.len() - at;
                set(&mut bytes, at + field, offset);
                bytes.extend(string);
            } else {
                later.push((at, field, string));
            }
        }
        let size = bytes.len() - at;
        set(&mut bytes, at + 2, size);
    }
    for (at, field, string) in later {
        // a string that stands there already is used again
        let found = if r.in_hundred(50) { bytes.windows(string.len()).skip(at + 18).position(|w| w == string).map(|p| p + at + 18) } else { None };
        let to = found.unwrap_or(bytes.len());
        if found.is_none() {
            bytes.extend(string);
        }
        set(&mut bytes, at + field, to - at);
    }
    // the last entry is as long as its fixed part, or reaches to the end; or is a byte too short, or too long
    if last.0 > 0 && r.in_hundred(6) {
        let to_end = bytes.len() - last.0;
        set(&mut bytes, last.0 + 2, r.one_of(&[last.1 - 1, last.1, to_end, to_end + 1]));
    }
    bytes
}

fn string(text: &[u16]) -> Vec<u8> {
    let mut bytes = vec![];
    put_string(&mut bytes, text);
    bytes
}

// As a server may spell a path.
fn spelled(r: &mut Random, path: &[u16]) -> Text {
    let mut text = respelled(r, path);
    match r.below(20) {
        0 => text.insert(0, BACKSLASH),
        1 => text.push(BACKSLASH),
        _ => {}
    }
    text
}

// Targets of a reply: others than those held, or those held in another order, perhaps with one more or less.
fn reply_targets(r: &mut Random, held: Option<&Referral>) -> Vec<Target> {
    let Some(held) = held.filter(|_| r.in_hundred(70)) else {
        let most = if r.in_hundred(1) { 200 } else { 12 };
        return targets(r, most);
    };
    let mut list = held.targets.clone();
    for _ in 0..r.one_of(&[0, 1, 1, 4]) {
        let (i, j) = (r.below(list.len()), r.below(list.len()));
        let path = list[i].path.clone();
        list[i].path = std::mem::replace(&mut list[j].path, path);
    }
    match r.below(10) {
        0 if list.len() > 1 => {
            list.remove(r.below(list.len()));
        }
        1 => {
            let again = r.one_of(&list);
            list.push(again);
        }
        2 => {
            let i = r.below(list.len());
            list[i].path = target_path(r);
        }
        3 => {
            let i = r.below(list.len());
            list[i].boundary ^= true;
        }
        4 => {
            // one target twice, another not at all
            let (i, j) = (r.below(list.len()), r.below(list.len()));
            list[i].path = list[j].path.clone();
        }
        _ => {}
    }
    list
}

fn referral_reply(r: &mut Random, asked: &[u16], caches: Option<&Caches>, covered: bool) -> Vec<u8> {
    let version = r.one_of(&[3, 4, 4]);
    let count = components(asked).len();
    let prefix = first(asked, if covered && r.in_hundred(70) { count } else { r.one_of(&[2, 2, 3, count, count]).min(count) });
    let held = caches.and_then(|c| c.referrals.iter().flatten().find(|e| equal(&e.prefix, &prefix)));
    let list = reply_targets(r, held);
    let server_type = if covered && r.in_hundred(80) { 0 } else { r.below(2) };
    let server_type = if r.in_hundred(1) { r.one_of(&[2, 256, 257]) } else { server_type };
    let flags = r.one_of(&[0, 1, 2, 3, 1, 2, 3]) | r.one_of(&[0, 4]) | r.one_of(&[0, 0, 8, 0xFFFF_0000]);
    let mut entries = vec![];
    for t in &list {
        let marks = t.boundary as u16 * 4 | r.one_of(&[0, 0, 1, 8]);
        let mut fixed = vec![];
        let (ttl, any) = (ttl(r), r.next() as u16);
        put(&mut fixed, &[version, 0, server_type as u16, marks, ttl as u16, (ttl >> 16) as u16, 0, any, 0]);
        fixed.extend([r.below(256) as u8; 16]);
        let strings = vec![(12, string(&spelled(r, &prefix))), (16, string(&spelled(r, &t.path)))];
        entries.push(Entry { fixed, strings });
    }
    if r.in_hundred(3) {
        // one entry is not like the others: version, ServerType, flags or DFSPath
        let i = r.below(entries.len());
        match r.below(4) {
            0 => entries[i].fixed[0] = r.one_of(&[1, 2, 3, 4, 5]),
            1 => entries[i].fixed[4] ^= 1,
            2 => entries[i].fixed[6] |= 2,
            _ => entries[i].strings[0].1 = string(&good_path(r, 3)),
        }
    }
    let header = header(r, list.len(), flags);
    laid_out(r, header, entries)
}

fn dc_reply(r: &mut Random) -> Vec<u8> {
    let count = r.one_of(&[1, 1, 2, 3, 8, 9, 11]);
    let mut names = vec![];
    for _ in 0..count {
        let mut name = dc_name(r);
        if r.in_hundred(50) {
            name.insert(0, BACKSLASH);
        }
        put_string(&mut names, &name);
    }
    let mut fixed = vec![];
    let version = if r.in_hundred(2) { r.one_of(&[2, 5]) } else { r.one_of(&[3, 4]) };
    let told = if r.in_hundred(3) { 0 } else { count as u16 };
    put(&mut fixed, &[version, 0, r.below(2) as u16, 2 | r.one_of(&[0, 4, 8]), 7, 0, 0, told, 0]);
    let more = r.in_hundred(5) as usize;
    let header = header(r, 1 + more, 0);
    laid_out(r, header, vec![Entry { fixed, strings: vec![(12, string(&ascii("\\corp"))), (16, names)] }])
}

pub fn domain_reply(r: &mut Random) -> Vec<u8> {
    let count = r.one_of(&[0, 1, 2, 3, 4, 5, 7, 12]);
    let mut entries = vec![];
    for _ in 0..count {
        let mut name = vec![BACKSLASH];
        name.extend(component(r, &FIRST));
        let mut fixed = vec![];
        if r.in_hundred(1) {
            name.remove(0);
        }
        let version = if r.in_hundred(1) { 4 } else { 3 };
        put(&mut fixed, &[version, 0, 0, 2, 7, 0, 0, 0, 0]);
        entries.push(Entry { fixed, strings: vec![(12, string(&name))] });
    }
    let header = header(r, count, 0);
    let bytes = laid_out(r, header, entries);
    if r.in_hundred(10) { damaged(r, bytes) } else { bytes }
}

/// Bits flipped, an end cut off or added, a field off.
fn damaged(r: &mut Random, mut bytes: Vec<u8>) -> Vec<u8> {
    for _ in 0..1 + r.below(3) {
        if bytes.is_empty() {
            break;
        }
        let at = r.below(bytes.len());
        let early = r.below(bytes.len().min(64));
        match r.below(7) {
            0 => bytes[at] ^= 1 << r.below(8),
            1 => bytes[early] ^= 1 << r.below(8),
            2 => bytes.truncate(at),
            3 => {
                let cut = r.below(4).min(bytes.len());
                bytes.truncate(bytes.len() - cut);
            }
            4 if early + 1 < bytes.len() => set(&mut bytes, early & !1, r.one_of(&[0, 1, 2, 3, 4, 8, 33, 34, 35, 65535])),
            5 => bytes.push(0),
            _ if at + 1 < bytes.len() => set(&mut bytes, at, r.one_of(&[0, 0, b'/' as usize, b'\\' as usize, b'.' as usize])),
            _ => {}
        }
    }
    bytes
}

/// An answer to the question that waits, as a server would give it; or not quite.
pub fn reply(r: &mut Random, caches: Option<&Caches>, walk: Option<&Walk>) -> Vec<u8> {
    let question: Option<(&Question, Text)> = walk.and_then(|w| w.question().map(|q| (q, w.name_asked(q))));
    let bytes = match (question, r.below(40)) {
        (_, 0) => vec![0; r.one_of(&[0, 1, 7, 8, 9, 40])],
        (_, 1) => dc_reply(r),
        (_, 2) => domain_reply(r),
        (_, 3) => {
            let other = good_path(r, 3);
            referral_reply(r, &other, caches, false)
        }
        (Some((q, _)), _) if q.kind == Kind::Dc => dc_reply(r),
        (Some((q, name)), _) if normalised(&name).is_ok() && components(&name).len() > 1 => referral_reply(r, &name, caches, q.covered),
        _ => referral_reply(r, &ascii("\\a\\b"), caches, false),
    };
    match r.below(30) {
        0..=2 => damaged(r, bytes),
        3 => {
            // as long as the size asked for, or a byte longer
            let mut longer = bytes;
            let to = walk.and_then(|w| w.question()).map_or(1024, |q| q.size as usize) + r.below(2);
            longer.resize(to.min(9000).max(longer.len()), 0);
            longer
        }
        _ => bytes,
    }
}

/// What another host does to the caches: mostly to the entry in use.
pub fn altered(r: &mut Random, caches: &mut Caches, walk: Option<&Walk>) {
    let used = walk.and_then(|w| w.question()).and_then(|q| q.entry.clone());
    let same = |key: &Text| used.as_ref().is_some_and(|u| equal(u, key));
    let in_use_only = r.in_hundred(70);
    for place in &mut caches.referrals {
        let Some(e) = place.as_mut().filter(|e| !in_use_only || same(&e.prefix)) else { continue };
        match r.below(4) {
            0 => *place = None,
            1 => {
                e.targets.truncate(1 + r.below(e.targets.len()));
                e.hint = e.hint.min(e.targets.len() - 1);
            }
            2 => e.hint = r.below(e.targets.len()),
            _ => e.serves = r.one_of(&[Serves::Root, Serves::Link]),
        }
    }
    for place in &mut caches.domains {
        let Some(d) = place.as_mut().filter(|d| !in_use_only || same(&d.name)) else { continue };
        match r.below(4) {
            0 => *place = None,
            1 => {
                // it has been told other DCs
                d.dcs = (0..1 + r.below(8)).map(|_| dc_name(r)).collect();
                d.hint = Some(r.below(d.dcs.len()));
            }
            2 => {
                d.dcs.truncate(r.below(1 + d.dcs.len()));
                d.hint = d.hint.filter(|_| !d.dcs.is_empty()).map(|h| h.min(d.dcs.len() - 1));
            }
            _ => d.hint = d.hint.map(|_| r.below(d.dcs.len())),
        }
    }
}

/// One rule of order broken by one entry.
pub fn disordered(r: &mut Random, caches: &mut Caches) {
    let (i, j) = (r.below(caches.referrals.len()), r.below(caches.referrals.len()));
    let bad = r.one_of(&["\\a", "\\a\\..", "\\\\a\\b", "\\a\\b\\", "a\\b", "\\a\\/"]);
    if let Some(mut e) = caches.referrals[i].clone().filter(|_| r.in_hundred(60)) {
        match r.below(6) {
            0 => e.prefix = respelled(r, &e.prefix),
            1 => e.prefix = ascii(bad),
            2 => {
                let t = r.below(e.targets.len());
                e.targets[t].path = ascii(bad);
            }
            3 => e.hint = e.targets.len(),
            4 => e.targets[0].boundary = true,
            _ => e.targets.clear(),
        }
        // an equal prefix stands twice where i and j are two places
        caches.referrals[j] = Some(e);
        return;
    }
    let (i, j) = (r.below(caches.domains.len()), r.below(caches.domains.len()));
    if let Some(mut d) = caches.domains[i].clone() {
        match r.below(4) {
            0 => d.name = respelled(r, &d.name),
            1 => d.name = ascii(bad),
            2 if !d.dcs.is_empty() => d.hint = Some(d.dcs.len()),
            _ => {
                let name = ascii(r.one_of(&["", "..", "a\\b", "/"]));
                d.dcs.truncate(7);
                d.dcs.push(name);
                d.hint = Some(0);
            }
        }
        caches.domains[j] = Some(d);
    }
}

/// The walk with a path of one component, all else as the form has it: a question that needs two becomes one that does not.
pub fn cut(r: &mut Random, walk: &Walk) -> Walk {
    let path = first(&walk.path, 1);
    let to_host = Question { kind: Kind::Root, entry: None, party: Party::Host, size: walk.size, tried: None, covered: false };
    let domain = Some(path[1..].to_vec());
    let rest = match &walk.rest {
        Rest::Asks(q) if [Kind::Link, Kind::Io].contains(&q.kind) => Rest::Asks(match r.below(4) {
            0 => Question { kind: Kind::Dc, entry: domain, party: Party::Bootstrap, ..to_host },
            1 => Question { kind: Kind::Sysvol, entry: domain, party: Party::Listed { place: 0, began: 0 }, ..to_host },
            2 => Question { kind: Kind::Root, entry: domain, party: Party::Listed { place: 1, began: 0 }, ..to_host },
            _ => to_host,
        }),
        rest => rest.clone(),
    };
    Walk { path, rest, ..walk.clone() }
}

/// One unit of lent memory changed: mostly in a head.
pub fn poked(r: &mut Random, units: &mut [u16], every: usize) {
    if units.is_empty() {
        return;
    }
    let base = r.below(units.len()) / every * every;
    let span = if r.in_hundred(60) { 32 } else { every };
    let at = (base + r.below(span)).min(units.len() - 1);
    let any = r.next() as u16;
    let was = units[at];
    units[at] = r.one_of(&[0, 1, 2, 3, 5, 8, 9, 20, 21, 23, 255, 256, 257, 900, 65535, b'\\' as u16, b'/' as u16, b'.' as u16, b'a' as u16, was ^ 32,
        was.wrapping_add(1), was.wrapping_sub(1), any]);
}
