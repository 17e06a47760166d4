//! Requests, and replies read field by field.
use super::caches::{Serves, Target, MOST_LISTED};
use super::names::{components, equal, good_name, matches, normalised, Text, BACKSLASH};

#[derive(Debug, PartialEq)]
pub enum Read<T> {
    /// NumberOfReferrals is 0.
    Empty,
    Malformed,
    Holds(T),
}

/// What a root, link or SYSVOL reply says.
#[derive(Debug, PartialEq)]
pub struct Reply {
    pub version: u16,
    pub prefix: Text,
    pub serves: Serves,
    pub interlink: bool,
    pub failback: bool,
    pub ttl: u32,
    /// The first 8.
    pub targets: Vec<Target>,
}

pub fn request(name: &[u16]) -> Vec<u8> {
    std::iter::once(4).chain(name.iter().copied()).chain([0]).flat_map(u16::to_le_bytes).collect()
}

struct Bytes<'a>(&'a [u8]);

impl Bytes<'_> {
    fn u16(&self, at: usize) -> Option<u16> {
        Some(u16::from_le_bytes(self.0.get(at..at + 2)?.try_into().unwrap()))
    }

    fn u32(&self, at: usize) -> Option<u32> {
        Some(u32::from_le_bytes(self.0.get(at..at + 4)?.try_into().unwrap()))
    }

    /// The units up to a unit 0 inside the reply.
    fn string(&self, at: usize) -> Option<Text> {
        let mut text = vec![];
        loop {
            match self.u16(at + 2 * text.len())? {
                0 => return Some(text),
                u => text.push(u),
            }
        }
    }

    /// A good path of 2 components or more, normalised.
    fn path(&self, at: usize) -> Option<Text> {
        let path = normalised(&self.string(at)?).ok()?;
        (components(&path).len() >= 2).then_some(path)
    }

    /// Where the entry after that at `at` starts; None where this one is shorter than its fixed part or not inside the reply.
    fn next(&self, at: usize, fixed: usize) -> Option<usize> {
        let size = self.u16(at + 2)? as usize;
        (size >= fixed && at + size <= self.0.len()).then_some(at + size)
    }

    fn flag(&self, at: usize, bit: u16) -> Option<bool> {
        Some(self.u16(at + 6)? & bit != 0)
    }
}

/// The tests that every reply has to pass, then those of its kind.
fn read<T>(reply: &[u8], size: u32, rest: impl FnOnce(&Bytes, usize) -> Option<T>) -> Read<T> {
    if reply.len() > size as usize || reply.len() < 8 {
        return Read::Malformed;
    }
    let bytes = Bytes(reply);
    match bytes.u16(2).unwrap() {
        0 => Read::Empty,
        n => rest(&bytes, n as usize).map_or(Read::Malformed, Read::Holds),
    }
}

/// A root, link or SYSVOL reply to a request for `asked`.
pub fn read_referral(reply: &[u8], size: u32, asked: &[u16]) -> Read<Reply> {
    read(reply, size, |b, n| {
        let header = b.u32(4)?;
        let version = b.u16(8)?;
        let server_type = b.u16(12)?;
        let prefix = b.path(8 + b.u16(8 + 12)? as usize)?;
        if !(version == 3 || version == 4) || server_type > 1 || !matches(&prefix, asked) {
            return None;
        }
        let mut targets = vec![];
        let mut at = 8;
        for i in 0..n {
            let next = b.next(at, 34)?;
            let same = b.u16(at)? == version && b.u16(at + 4)? == server_type && equal(&b.path(at + b.u16(at + 12)? as usize)?, &prefix);
            if !same || b.flag(at, 2)? {
                return None;
            }
            let path = b.path(at + b.u16(at + 16)? as usize)?;
            targets.push(Target { path, boundary: version == 4 && i > 0 && b.flag(at, 4)? });
            at = next;
        }
        targets.truncate(MOST_LISTED);
        Some(Reply {
            version,
            prefix,
            serves: if server_type == 1 { Serves::Root } else { Serves::Link },
            interlink: header & 1 != 0 && header & 2 == 0,
            failback: version == 4 && header & 4 != 0,
            ttl: b.u32(8 + 8)?,
            targets,
        })
    })
}

/// The DC names of a DC reply: its first entry only.
pub fn read_dcs(reply: &[u8], size: u32) -> Read<Vec<Text>> {
    read(reply, size, |b, _| {
        b.next(8, 18)?;
        let version = b.u16(8)?;
        let count = b.u16(8 + 14)?;
        if !(version == 3 || version == 4) || !b.flag(8, 2)? || count == 0 {
            return None;
        }
        let mut at = 8 + b.u16(8 + 16)? as usize;
        let mut dcs = vec![];
        for _ in 0..count {
            let spelled = b.string(at)?;
            at += 2 * (spelled.len() + 1);
            let name = spelled.strip_prefix(&[BACKSLASH]).unwrap_or(&spelled);
            if !good_name(name) {
                return None;
            }
            dcs.push(name.to_vec());
        }
        dcs.truncate(MOST_LISTED);
        Some(dcs)
    })
}

/// The names of a domain reply, equal ones once, in the first spelling.
pub fn read_domains(reply: &[u8], size: u32) -> Read<Vec<Text>> {
    read(reply, size, |b, n| {
        let mut names: Vec<Text> = vec![];
        let mut at = 8;
        for _ in 0..n {
            let next = b.next(at, 18)?;
            if b.u16(at)? != 3 || !b.flag(at, 2)? {
                return None;
            }
            let spelled = b.string(at + b.u16(at + 12)? as usize)?;
            let name = spelled.strip_prefix(&[BACKSLASH])?;
            if !good_name(name) {
                return None;
            }
            if !names.iter().any(|m| equal(m, name)) {
                names.push(name.to_vec());
            }
            at = next;
        }
        Some(names)
    })
}
