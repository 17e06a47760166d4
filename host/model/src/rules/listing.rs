//! The listing of the referral cache, and what reading one leaves.
use super::caches::{good_count, good_referrals, Referral, Serves, Target};
use super::names::{ascii, Text};

pub const LINE_FEED: u16 = 0x0A;
const ESCAPE: u16 = b'~' as u16;

/// Units that stand as they are; others are escaped.
fn stands(u: u16) -> bool {
    (0x21..=0x7E).contains(&u) && u != ESCAPE
}

fn spelled(path: &[u16]) -> Text {
    path.iter().flat_map(|u| if stands(*u) { vec![*u] } else { ascii(&format!("~{u:04X}")) }).collect()
}

/// The lines of an entry, whatever it holds.
pub fn lines(e: &Referral) -> Vec<Text> {
    let path = |key: &str, path: &[u16]| [ascii(key), spelled(path)].concat();
    let mut all = vec![
        path("prefix=", &e.prefix),
        ascii(if e.serves == Serves::Root { "kind=root" } else { "kind=link" }),
        ascii(&format!("interlink={}", e.interlink as u8)),
        ascii(&format!("failback={}", e.failback as u8)),
        ascii(&format!("ttl={}", e.ttl)),
        ascii(&format!("taken={}", e.taken)),
        ascii(&format!("hint={}", e.hint)),
    ];
    all.extend(e.targets.iter().map(|t| path("target=", &t.path)));
    all
}

/// Lines, each ended.
pub fn ended(lines: &[Text]) -> Text {
    lines.iter().flat_map(|l| l.iter().copied().chain([LINE_FEED])).collect()
}

/// The text of a cache in a buffer of so many units. No cache: it is not in order.
pub fn list(cache: Option<&[Option<Referral>]>, room: usize) -> Result<Text, u32> {
    let lines: Vec<Text> = cache.ok_or(4u32)?.iter().flatten().flat_map(lines).collect();
    let text = ended(&lines);
    if text.len() > room { Err(10) } else { Ok(text) }
}

/// Lines that are still to be read.
struct Lines<'a>(&'a [&'a [u16]]);

impl<'a> Lines<'a> {
    /// The value of the next line where that has this key.
    fn value(&mut self, key: &str) -> Option<&'a [u16]> {
        let (line, rest) = self.0.split_first()?;
        let value = line.strip_prefix(&ascii(key)[..])?;
        self.0 = rest;
        Some(value)
    }
}

fn decimal(value: &[u16]) -> Option<u32> {
    let digits: Vec<u32> = value.iter().map(|u| char::from_u32(*u as u32)?.to_digit(10)).collect::<Option<_>>()?;
    if digits.is_empty() || (digits.len() > 1 && digits[0] == 0) {
        return None;
    }
    digits.iter().try_fold(0u32, |n, d| n.checked_mul(10)?.checked_add(*d))
}

fn flag(value: &[u16]) -> Option<bool> {
    decimal(value).filter(|n| *n <= 1).map(|n| n == 1)
}

fn kind(value: &[u16]) -> Option<Serves> {
    if value == ascii("root") {
        return Some(Serves::Root);
    }
    (value == ascii("link")).then_some(Serves::Link)
}

fn upper_hex(digit: u16) -> Option<u16> {
    match digit {
        0x30..=0x39 => Some(digit - 0x30),
        0x41..=0x46 => Some(digit - 0x41 + 10),
        _ => None,
    }
}

/// The units of a path; no other spelling is read.
fn path(mut value: &[u16]) -> Option<Text> {
    let mut units = vec![];
    while let [u, rest @ ..] = value {
        value = rest;
        if stands(*u) {
            units.push(*u);
            continue;
        }
        let digits = rest.get(..4).filter(|_| *u == ESCAPE)?;
        let unit = digits.iter().try_fold(0, |n, d| Some(n * 16 + upper_hex(*d)?))?;
        if stands(unit) {
            return None;
        }
        units.push(unit);
        value = &rest[4..];
    }
    Some(units)
}

fn entry(lines: &mut Lines) -> Option<Referral> {
    let mut e = Referral {
        prefix: path(lines.value("prefix=")?)?,
        serves: kind(lines.value("kind=")?)?,
        interlink: flag(lines.value("interlink=")?)?,
        failback: flag(lines.value("failback=")?)?,
        ttl: decimal(lines.value("ttl=")?)?,
        taken: decimal(lines.value("taken=")?)?,
        hint: decimal(lines.value("hint=")?)? as usize,
        targets: vec![],
    };
    // one set: sets are not listed
    while let Some(value) = lines.value("target=") {
        e.targets.push(Target { path: path(value)?, boundary: false });
    }
    Some(e)
}

/// The entries of a text; None where it is not of the form.
fn entries(text: &[u16]) -> Option<Vec<Referral>> {
    if text.is_empty() {
        return Some(vec![]);
    }
    let all: Vec<&[u16]> = text.strip_suffix(&[LINE_FEED])?.split(|u| *u == LINE_FEED).collect();
    let mut lines = Lines(&all);
    let mut entries = vec![];
    while !lines.0.is_empty() {
        entries.push(entry(&mut lines)?);
    }
    Some(entries)
}

/// A text into a referral cache of so many places: its content then, or a refusal.
pub fn referrals_after(text: &[u16], places: usize) -> Result<Vec<Option<Referral>>, u32> {
    if !good_count(places) {
        return Err(4);
    }
    let entries = entries(text).filter(|e| good_referrals(e.iter())).ok_or(8u32)?;
    if entries.len() > places {
        return Err(9);
    }
    let mut after: Vec<Option<Referral>> = entries.into_iter().map(Some).collect();
    after.resize(places, None);
    Ok(after)
}
