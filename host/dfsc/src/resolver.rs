//! Both caches and the settings together, and the round of questions: a host has only to be reached by [`Network`].
use crate::caches::{DomainCache, ReferralCache, MOST_PLACES};
use crate::refusal::Refusal;
use crate::status::NtStatus;
use crate::text::{units, Text};
use crate::walk::{End, Kind, Outcome, Question, Rest, Settings, Walk};

/// What a host does for a walk: two requests over SMB, and a clock. docs/HOST.md says how each is asked and which status to answer.
pub trait Network {
    /// Sends a referral request to `IPC$` of a server, for a reply of at most `size` bytes: the status, and the reply.
    fn referral(&mut self, server: &Text, request: &[u8], size: u32) -> (NtStatus, Vec<u8>);

    /// Tries the I/O on a path of server, share and rest: the status.
    fn io(&mut self, path: &Text) -> NtStatus;

    /// Seconds of a clock that nobody sets; it may roll over.
    fn clock(&mut self) -> u32;
}

/// The caches of a host and the settings of its walks.
#[derive(Clone, Debug)]
pub struct Resolver {
    /// The referrals that are known.
    pub referrals: ReferralCache,
    /// The domains that are known.
    pub domains: DomainCache,
    /// The name of the DC to ask where a domain's DCs are not known.
    pub bootstrap: Vec<u16>,
    /// The most moves of a walk, 1 to 64.
    pub limit: u32,
    /// The bytes that a referral reply may have at first, 1,024 to 57,344.
    pub size: u32,
}

/// How a walk ended, and what [`Resolver::follow`] goes by.
struct Walked {
    end: End,
    /// The last question: its kind, none for I/O, and the name asked or tried.
    last: Option<(Option<Kind>, Text)>,
    /// A referral request was answered with success, so the entry in use is new.
    asked: bool,
}

impl Resolver {
    /// Empty caches of 32 places, a limit of 16 moves, a size of 8,192 bytes. A host without a domain gives any name for the bootstrap DC.
    pub fn new(bootstrap: &str) -> Resolver {
        Resolver {
            referrals: ReferralCache::new(MOST_PLACES).expect("32 places are allowed"),
            domains: DomainCache::new(MOST_PLACES).expect("32 places are allowed"),
            bootstrap: units(bootstrap),
            limit: 16,
            size: 8192,
        }
    }

    /// Fills the domain cache from the bootstrap DC: the status with which it answered. What the cache held is replaced where that is a success.
    pub fn fill_domains(&mut self, network: &mut impl Network) -> Result<NtStatus, Refusal> {
        const MOST: u32 = 57344;
        let (server, mut size) = (Text::of(&self.bootstrap), self.size);
        loop {
            let (status, reply) = network.referral(&server, &DomainCache::request(), size);
            if status == NtStatus::BUFFER_OVERFLOW && size < MOST {
                size = MOST.min(2 * size);
            } else if status.severity() >= 2 {
                return Ok(status);
            } else {
                return self.domains.read(&reply, size).map(|()| status);
            }
        }
    }

    /// One walk, to its end.
    pub fn walk(&mut self, path: &[u16], network: &mut impl Network) -> Result<End, Refusal> {
        self.walked(path, network).map(|w| w.end)
    }

    fn walked(&mut self, path: &[u16], network: &mut impl Network) -> Result<Walked, Refusal> {
        let Resolver { referrals, domains, bootstrap, limit, size } = self;
        let mut walk = Walk::start(referrals, domains, path, Settings { bootstrap, limit: *limit, size: *size }, network.clock())?;
        let (mut last, mut asked) = (None, false);
        loop {
            match walk.rest(referrals, domains)? {
                Rest::Ended(end) => return Ok(Walked { end, last, asked }),
                Rest::Asks(Question::Referral { kind, party, name, size, request }) => {
                    let (status, reply) = network.referral(&party.component(0), request, size);
                    (last, asked) = (Some((Some(kind), name)), asked || status.severity() < 2);
                    walk.answer_referral(referrals, domains, status, &reply, network.clock())?;
                }
                Rest::Asks(Question::Io { name, .. }) => {
                    last = Some((None, name));
                    let status = network.io(&name);
                    walk.answer_io(referrals, domains, status, network.clock())?;
                }
            }
        }
    }

    /// Walks, and walks again where docs/HOST.md has a recipe for the end: a path in another namespace that the referral did not tell (`namespaces` of them
    /// at most), targets or root targets of an entry in the cache that are gone (once), a DC that does not answer for SYSVOL (each DC once).
    pub fn follow(&mut self, path: &[u16], network: &mut impl Network, namespaces: usize) -> Result<End, Refusal> {
        let (mut path, mut left, mut renewed, mut moved) = (path.to_vec(), namespaces, false, 1);
        loop {
            let held = self.referrals.entries().next().is_some();
            let Walked { end, last, asked } = self.walked(&path, network)?;
            let again = match (end.outcome, last) {
                (Outcome::Failed, Some((None, tried))) if end.status == NtStatus::PATH_NOT_COVERED && left > 0 => {
                    left -= 1;
                    path = tried.to_vec();
                    true
                }
                (Outcome::Failed, Some((None, _))) if end.status.tries_next_target() && !asked && !renewed => {
                    renewed = true;
                    self.referrals.expire_all()?;
                    true
                }
                (Outcome::Failed, Some((Some(Kind::Link), _))) if held && !renewed => {
                    renewed = true;
                    self.referrals.clear();
                    true
                }
                (Outcome::NoDc, Some((Some(Kind::Sysvol), _))) => {
                    let domain = end.path.component(0);
                    let dcs = self.domains.entry(&domain).map_or(0, |d| d.dcs.len());
                    moved += 1;
                    self.domains.next_dc(&domain).is_ok() && moved <= dcs
                }
                _ => false,
            };
            if !again {
                return Ok(end);
            }
        }
    }
}
