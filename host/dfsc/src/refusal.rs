//! Why a call was not taken.
use std::fmt;

/// A refusal. A call that is refused has changed nothing.
#[derive(Clone, Copy, Debug, PartialEq, Eq)]
#[non_exhaustive]
pub enum Refusal {
    /// 1: the path is not a path.
    BadPath,
    /// 2: the path is good and has over 256 units.
    LongPath,
    /// 3: limit, size or bootstrap DC.
    BadSettings,
    /// 4: a cache is not in order.
    NotInOrder,
    /// 5: the walk has ended, is out of form, or waits for another kind of answer.
    OutOfForm,
    /// 6: a domain reply has more different names than the cache has places.
    TooManyNames,
    /// 7: a domain reply is malformed or empty.
    BadDomainReply,
    /// 8: a text is no listing, or its entries are not in order.
    BadListing,
    /// 9: a listing has more entries than the cache has places.
    TooManyEntries,
    /// 10: a buffer is too short. The buffers of this crate are long enough.
    ShortBuffer,
    /// 27: the entry in use is gone from its cache, or has lost the target or DC that was to be asked. Any answer ends such a walk with [`Outcome::Gone`](crate::Outcome).
    /// Of [`expire`](crate::ReferralCache::expire) and [`next_dc`](crate::DomainCache::next_dc): there is no such entry, or it has no DC.
    Gone,
    /// A number that has no name here.
    Other(u32),
}

const NAMED: [(u32, Refusal, &str); 11] = [
    (1, Refusal::BadPath, "bad path"),
    (2, Refusal::LongPath, "path of over 256 units"),
    (3, Refusal::BadSettings, "bad limit, size or bootstrap DC"),
    (4, Refusal::NotInOrder, "a cache is not in order"),
    (5, Refusal::OutOfForm, "the walk has ended, is out of form, or waits for another kind of answer"),
    (6, Refusal::TooManyNames, "more domains than the cache has places"),
    (7, Refusal::BadDomainReply, "domain reply malformed or empty"),
    (8, Refusal::BadListing, "no listing, or its entries are not in order"),
    (9, Refusal::TooManyEntries, "more entries than the cache has places"),
    (10, Refusal::ShortBuffer, "buffer too short"),
    (27, Refusal::Gone, "the entry is gone"),
];

impl Refusal {
    /// The refusal of a number.
    pub fn of(number: u32) -> Refusal {
        NAMED.iter().find(|(n, _, _)| *n == number).map_or(Refusal::Other(number), |(_, r, _)| *r)
    }

    /// Its number.
    pub fn number(self) -> u32 {
        match self {
            Refusal::Other(number) => number,
            named => NAMED.iter().find(|(_, r, _)| *r == named).map_or(0, |(n, _, _)| *n),
        }
    }
}

impl fmt::Display for Refusal {
    fn fmt(&self, f: &mut fmt::Formatter) -> fmt::Result {
        let text = NAMED.iter().find(|(_, r, _)| r == self).map_or("refused", |(_, _, text)| text);
        write!(f, "{text} ({})", self.number())
    }
}

impl std::error::Error for Refusal {}

/// What a call that moves something gives back: 0 where it was taken.
pub(crate) fn taken(number: u32) -> Result<(), Refusal> {
    if number == 0 {
        Ok(())
    } else {
        Err(Refusal::of(number))
    }
}

/// What a call that shows something gives back: the elements written, or 65,536 times a refusal.
pub(crate) fn shown(number: u32) -> Result<usize, Refusal> {
    if number < 1 << 16 {
        Ok(number as usize)
    } else {
        Err(Refusal::of(number >> 16))
    }
}

/// What listing gives back: the units written, or 2^32 times a refusal.
pub(crate) fn listed(number: u64) -> Result<usize, Refusal> {
    if number < 1 << 32 {
        Ok(number as usize)
    } else {
        Err(Refusal::of((number >> 32) as u32))
    }
}
