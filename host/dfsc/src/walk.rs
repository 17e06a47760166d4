//! A walk: from a path to the path of a share, question by question.
use crate::caches::{DomainCache, ReferralCache};
use crate::calls;
use crate::refusal::{shown, taken, Refusal};
use crate::status::NtStatus;
use crate::text::Text;
use std::fmt;

/// The units of a walk.
pub const WALK_UNITS: usize = 800;
/// The bytes of the longest request.
pub const REQUEST_BYTES: usize = 516;
const IO: u32 = 5;

/// What a walk is given at its start.
#[derive(Clone, Copy, Debug)]
pub struct Settings<'a> {
    /// The name of the DC to ask where a domain's DCs are not known.
    pub bootstrap: &'a [u16],
    /// The most moves, 1 to 64: questions, and replacements of the path by interlinks.
    pub limit: u32,
    /// The bytes that a referral reply may have at first, 1,024 to 57,344.
    pub size: u32,
}

/// The kind of a referral request.
#[derive(Clone, Copy, Debug, PartialEq, Eq)]
#[non_exhaustive]
pub enum Kind {
    /// 1: the DCs of a domain, from the bootstrap DC.
    Dc,
    /// 2: a root, from a DC or from the path's host.
    Root,
    /// 3: a link, from a root target.
    Link,
    /// 4: SYSVOL or NETLOGON, from a DC.
    Sysvol,
}

impl Kind {
    fn of(number: u32) -> Option<Kind> {
        [Kind::Dc, Kind::Root, Kind::Link, Kind::Sysvol].get((number as usize).checked_sub(1)?).copied()
    }
}

/// As the program `walk` says it: dc, root, link, sysvol.
impl fmt::Display for Kind {
    fn fmt(&self, f: &mut fmt::Formatter) -> fmt::Result {
        f.pad(match self {
            Kind::Dc => "dc",
            Kind::Root => "root",
            Kind::Link => "link",
            Kind::Sysvol => "sysvol",
        })
    }
}

/// What a walk waits for.
#[derive(Clone, Debug, PartialEq, Eq)]
#[non_exhaustive]
pub enum Question<'a> {
    /// A referral request; answered by [`Walk::answer_referral`].
    Referral {
        /// Its kind.
        kind: Kind,
        /// Whom to ask: the path of a target ([`Kind::Link`]), the name of a DC or of a host.
        party: Text,
        /// The name that is asked for.
        name: Text,
        /// The bytes that the reply may have.
        size: u32,
        /// The bytes of REQ_GET_DFS_REFERRAL, to be sent as they are.
        request: &'a [u8],
    },
    /// The I/O itself, to be tried; answered by [`Walk::answer_io`].
    Io {
        /// The path of the target.
        party: Text,
        /// The path to try.
        name: Text,
    },
}

impl fmt::Display for Question<'_> {
    fn fmt(&self, f: &mut fmt::Formatter) -> fmt::Result {
        match self {
            Question::Referral { kind, party, name, size, .. } => write!(f, "{kind} referral of {name} from {party}, {size} bytes"),
            Question::Io { name, .. } => write!(f, "I/O on {name}"),
        }
    }
}

/// How a walk ended.
#[derive(Clone, Copy, Debug, PartialEq, Eq)]
#[non_exhaustive]
pub enum Outcome {
    /// 20: the I/O was done.
    Done,
    /// 21: no DFS path. The host goes on with the path as it is.
    NotDfs,
    /// 22: no DC of the domain could be asked.
    NoDc,
    /// 23: a DFS path, and it failed.
    Failed,
    /// 24: the limit was reached.
    LimitReached,
    /// 25: a reply was malformed, and nothing of it stored.
    Malformed,
    /// 26: a path with a target in place of its prefix has over 256 units.
    TooLong,
    /// 27: the entry in use is gone from its cache, or has lost the target or DC that was asked.
    Gone,
}

const OUTCOMES: [Outcome; 8] =
    [Outcome::Done, Outcome::NotDfs, Outcome::NoDc, Outcome::Failed, Outcome::LimitReached, Outcome::Malformed, Outcome::TooLong, Outcome::Gone];

impl Outcome {
    fn of(number: u32) -> Option<Outcome> {
        OUTCOMES.get((number as usize).checked_sub(20)?).copied()
    }

    /// Its number, 20 to 27.
    pub fn number(self) -> u32 {
        20 + self as u32
    }
}

impl fmt::Display for Outcome {
    fn fmt(&self, f: &mut fmt::Formatter) -> fmt::Result {
        let text = match self {
            Outcome::Done => "done",
            Outcome::NotDfs => "not DFS",
            Outcome::NoDc => "no DC",
            Outcome::Failed => "failed in DFS",
            Outcome::LimitReached => "limit reached",
            Outcome::Malformed => "reply malformed",
            Outcome::TooLong => "new path too long",
            Outcome::Gone => "the entry in use is gone",
        };
        write!(f, "{text} ({})", self.number())
    }
}

/// The end of a walk.
#[derive(Clone, Debug, PartialEq, Eq)]
#[non_exhaustive]
pub struct End {
    /// How it ended.
    pub outcome: Outcome,
    /// The NTSTATUS: 0 but for [`Outcome::Done`], [`Outcome::NoDc`] and [`Outcome::Failed`].
    pub status: NtStatus,
    /// The path that was tried for [`Outcome::Done`], else the one that was being resolved.
    pub path: Text,
    /// The moves made.
    pub moves: u32,
}

impl fmt::Display for End {
    fn fmt(&self, f: &mut fmt::Formatter) -> fmt::Result {
        write!(f, "{}, status {}, {} after {} moves", self.outcome, self.status, self.path, self.moves)
    }
}

/// Where a walk is. It is looked at and gone, so that its size does not matter.
#[allow(clippy::large_enum_variant)]
#[derive(Clone, Debug, PartialEq, Eq)]
#[non_exhaustive]
pub enum Rest<'a> {
    /// It waits for the answer to a question.
    Asks(Question<'a>),
    /// It has ended.
    Ended(End),
}

impl fmt::Display for Rest<'_> {
    fn fmt(&self, f: &mut fmt::Formatter) -> fmt::Result {
        match self {
            Rest::Asks(question) => question.fmt(f),
            Rest::Ended(end) => end.fmt(f),
        }
    }
}

/// A walk at rest. It is copied and saved as its units; two walks may share caches, called one at a time.
#[derive(Clone)]
pub struct Walk {
    units: [u16; WALK_UNITS],
    request: [u8; REQUEST_BYTES],
}

impl fmt::Debug for Walk {
    fn fmt(&self, f: &mut fmt::Formatter) -> fmt::Result {
        f.debug_struct("Walk").field("question", &self.numbers(calls::question)).field("end", &self.end()).finish_non_exhaustive()
    }
}

impl Walk {
    /// A new walk for a path of one or two leading backslashes. The caches are read only.
    pub fn start(refs: &ReferralCache, doms: &DomainCache, path: &[u16], settings: Settings, clock: u32) -> Result<Walk, Refusal> {
        let mut walk = Walk { units: [0; WALK_UNITS], request: [0; REQUEST_BYTES] };
        let Settings { bootstrap, limit, size } = settings;
        taken(calls::start(refs.units(), doms.units(), &mut walk.units, path, bootstrap, limit, size, clock, &mut walk.request))?;
        Ok(walk)
    }

    /// A walk that was saved: its units, and the bytes of the request that it waits for, none for another question or an end. The units are tested by
    /// each call that uses them, the request is not.
    pub fn from_saved(units: [u16; WALK_UNITS], request: &[u8]) -> Result<Walk, Refusal> {
        let mut walk = Walk { units, request: [0; REQUEST_BYTES] };
        walk.request.get_mut(..request.len()).ok_or(Refusal::ShortBuffer)?.copy_from_slice(request);
        Ok(walk)
    }

    /// Its units, not to be changed.
    pub fn units(&self) -> &[u16; WALK_UNITS] {
        &self.units
    }

    fn numbers(&self, show: fn(&[u16], &mut [u32]) -> u32) -> Result<[u32; 3], Refusal> {
        let mut numbers = [0; 3];
        shown(show(&self.units, &mut numbers))?;
        Ok(numbers)
    }

    /// The question that waits, or the end.
    ///
    /// [`Refusal::Gone`] where another walk or the host took away the entry in use, [`Refusal::NotInOrder`] for a cache that is not in order.
    pub fn rest(&self, refs: &ReferralCache, doms: &DomainCache) -> Result<Rest<'_>, Refusal> {
        if self.numbers(calls::question).is_err() {
            return self.end().map(Rest::Ended);
        }
        self.question(refs, doms).map(Rest::Asks)
    }

    /// The question that waits; [`Refusal::OutOfForm`] where none does.
    pub fn question(&self, refs: &ReferralCache, doms: &DomainCache) -> Result<Question<'_>, Refusal> {
        let [kind, size, _] = self.numbers(calls::question)?;
        let party = Text::shown(|out| calls::question_party(refs.units(), doms.units(), &self.units, out))?;
        let name = Text::shown(|out| calls::question_name(&self.units, out))?;
        if kind == IO {
            return Ok(Question::Io { party, name });
        }
        let kind = Kind::of(kind).ok_or(Refusal::Other(kind))?;
        Ok(Question::Referral { kind, party, name, size, request: &self.request[..4 + 2 * name.len()] })
    }

    /// The end; [`Refusal::OutOfForm`] where the walk has not ended.
    pub fn end(&self) -> Result<End, Refusal> {
        let [number, status, moves] = self.numbers(calls::end)?;
        let path = Text::shown(|out| calls::end_path(&self.units, out))?;
        Ok(End { outcome: Outcome::of(number).ok_or(Refusal::Other(number))?, status: NtStatus(status), path, moves })
    }

    /// The moves made, with the one that waits.
    pub fn moves(&self) -> Result<u32, Refusal> {
        self.numbers(calls::question).or_else(|_| self.numbers(calls::end)).map(|[_, _, moves]| moves)
    }

    /// The answer to a referral request: the NTSTATUS and the bytes of RESP_GET_DFS_REFERRAL, which are not read where the status is a failure. What the
    /// reply says is stored in the caches.
    pub fn answer_referral(
        &mut self, refs: &mut ReferralCache, doms: &mut DomainCache, status: impl Into<NtStatus>, reply: &[u8], clock: u32,
    ) -> Result<(), Refusal> {
        taken(calls::answer_referral(refs.units_mut(), doms.units_mut(), &mut self.units, status.into().0, reply, clock, &mut self.request))
    }

    /// The answer to an I/O try: its NTSTATUS.
    pub fn answer_io(&mut self, refs: &mut ReferralCache, doms: &DomainCache, status: impl Into<NtStatus>, clock: u32) -> Result<(), Refusal> {
        taken(calls::answer_io(refs.units_mut(), doms.units(), &mut self.units, status.into().0, clock, &mut self.request))
    }
}
