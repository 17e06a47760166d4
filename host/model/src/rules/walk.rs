//! The walk: the steps of document 000, as document 01 reads them, and the calls that a host makes.
use super::caches::{Caches, Referral, Serves};
use super::names::{components, equal, first, good_name, normalised, replaced, ascii, BadPath, Text};
use super::replies::{read_dcs, read_referral, request, Read};
use super::storing::{store, store_dcs};

pub const MOST_SIZE: u32 = 57_344;
const LEAST_SIZE: u32 = 1_024;
const MOST_MOVES: u32 = 64;

const PATH_NOT_FOUND: u32 = 0xC000_003A;
pub const PATH_NOT_COVERED: u32 = 0xC000_0257;
pub const BUFFER_OVERFLOW: u32 = 0x8000_0005;
pub const NEXT_TARGET: [u32; 6] = [0xC000_00B5, 0xC000_00BE, 0xC000_00C9, 0xC000_00CC, 0xC000_0236, 0xC000_023D];

#[derive(Clone, Copy, Debug, PartialEq)]
pub enum Kind {
    Dc,
    Root,
    Link,
    Sysvol,
    Io,
}

/// Who is asked.
#[derive(Clone, Debug, PartialEq)]
pub enum Party {
    Bootstrap,
    /// The path's first component.
    Host,
    /// Of the list of the entry in use: the place asked, and the place with which the round began.
    Listed { place: usize, began: usize },
}

#[derive(Clone, Debug, PartialEq)]
pub struct Question {
    pub kind: Kind,
    /// The entry in use: a prefix, or a domain's name; none for a root request to a host.
    pub entry: Option<Text>,
    pub party: Party,
    /// 0 for I/O.
    pub size: u32,
    /// The path of an I/O try.
    pub tried: Option<Text>,
    /// A link request that came of PATH_NOT_COVERED.
    pub covered: bool,
}

#[derive(Clone, Debug, PartialEq)]
pub struct End {
    pub number: u32,
    pub status: u32,
    /// The path tried, of end 20.
    pub tried: Option<Text>,
}

#[derive(Clone, Debug, PartialEq)]
pub enum Rest {
    Asks(Question),
    Ends(End),
}

#[derive(Clone, Debug, PartialEq)]
pub struct Walk {
    pub limit: u32,
    pub size: u32,
    pub boot: Text,
    pub moves: u32,
    pub path: Text,
    /// The walk has had a cache hit or a successful referral.
    pub in_dfs: bool,
    pub rest: Rest,
}

pub fn good_size(size: u32) -> bool {
    (LEAST_SIZE..=MOST_SIZE).contains(&size)
}

pub fn good_settings(limit: u32, size: u32, boot: &[u16]) -> bool {
    (1..=MOST_MOVES).contains(&limit) && good_size(size) && good_name(boot)
}

fn severity(status: u32) -> u32 {
    status >> 30
}

fn ends(number: u32, status: u32) -> Rest {
    Rest::Ends(End { number, status, tried: None })
}

/// The place after, round past the last; None where the round began there.
fn next_party(place: usize, began: usize, count: usize) -> Option<Party> {
    let place = (place + 1) % count;
    (place != began).then_some(Party::Listed { place, began })
}

/// A call under way.
struct Steps<'a> {
    caches: &'a mut Caches,
    walk: &'a mut Walk,
    now: u32,
}

impl Steps<'_> {
    fn domain_name(&self) -> Text {
        components(&self.walk.path)[0].to_vec()
    }

    fn names_sysvol(&self) -> bool {
        components(&self.walk.path).get(1).is_some_and(|c| equal(c, &ascii("SYSVOL")) || equal(c, &ascii("NETLOGON")))
    }

    fn limit_reached(&self) -> bool {
        self.walk.moves >= self.walk.limit
    }

    fn put(&mut self, question: Question) -> Rest {
        if self.limit_reached() {
            return ends(24, 0);
        }
        self.walk.moves += 1;
        Rest::Asks(question)
    }

    fn put_request(&mut self, kind: Kind, entry: Option<Text>, party: Party, covered: bool) -> Rest {
        let size = self.walk.size;
        self.put(Question { kind, entry, party, size, tried: None, covered })
    }

    fn put_io(&mut self, entry: &Referral, place: usize, began: usize) -> Rest {
        if self.limit_reached() {
            return ends(24, 0);
        }
        let Some(tried) = replaced(&self.walk.path, &entry.prefix, &entry.targets[place].path) else {
            return ends(26, 0);
        };
        self.put(Question { kind: Kind::Io, entry: Some(entry.prefix.clone()), party: Party::Listed { place, began }, size: 0, tried: Some(tried), covered: false })
    }

    fn step_1(&mut self) -> Rest {
        if components(&self.walk.path).len() == 1 {
            return ends(21, 0);
        }
        self.step_2()
    }

    /// Look up the path.
    fn step_2(&mut self) -> Rest {
        let Some(entry) = self.caches.find(&self.walk.path).cloned() else {
            return self.step_5();
        };
        self.walk.in_dfs = true;
        match (entry.expired(self.now), entry.serves) {
            (true, Serves::Root) => self.step_5(),
            (true, Serves::Link) => self.step_9(),
            (false, Serves::Link) => self.step_4(&entry),
            (false, Serves::Root) => self.step_3(&entry),
        }
    }

    /// Replace, and on to step 8: the I/O.
    fn step_3(&mut self, entry: &Referral) -> Rest {
        self.put_io(entry, entry.hint, entry.hint)
    }

    /// A link: is it an interlink?
    fn step_4(&mut self, entry: &Referral) -> Rest {
        if !self.names_sysvol() && entry.interlink {
            return self.step_11(entry);
        }
        self.step_3(entry)
    }

    /// Look up the first component among the domains.
    fn step_5(&mut self) -> Rest {
        let name = self.domain_name();
        match self.caches.domain(&name).map(|d| d.hint) {
            None => self.put_request(Kind::Root, None, Party::Host, false),
            Some(None) => self.put_request(Kind::Dc, Some(name), Party::Bootstrap, false),
            Some(Some(hint)) => self.step_5_2_2(hint),
        }
    }

    /// A domain with a DC that is hinted at: step 10 for SYSVOL, else step 6 through that DC.
    fn step_5_2_2(&mut self, hint: usize) -> Rest {
        let kind = if self.names_sysvol() { Kind::Sysvol } else { Kind::Root };
        let name = self.domain_name();
        self.put_request(kind, Some(name), Party::Listed { place: hint, began: hint }, false)
    }

    /// Root or link, by what the stored entry holds: steps 7 and 9.
    fn step_7(&mut self, entry: &Referral) -> Rest {
        match entry.serves {
            Serves::Root => self.step_3(entry),
            Serves::Link => self.step_4(entry),
        }
    }

    /// An expired link: ask a root target of the namespace.
    fn step_9(&mut self) -> Rest {
        let prefix = first(&self.walk.path, 2);
        match self.caches.with_prefix(&prefix).filter(|e| e.serves == Serves::Root).map(|e| e.hint) {
            Some(hint) => self.put_request(Kind::Link, Some(prefix), Party::Listed { place: hint, began: hint }, false),
            None => self.step_5(),
        }
    }

    fn step_11(&mut self, entry: &Referral) -> Rest {
        if self.limit_reached() {
            return ends(24, 0);
        }
        let Some(path) = replaced(&self.walk.path, &entry.prefix, &entry.targets[entry.hint].path) else {
            return ends(26, 0);
        };
        self.walk.moves += 1;
        self.walk.path = path;
        self.step_2()
    }

    /// How many parties the entry in use has; None where the entry is gone or has not those that the question names.
    fn parties(&mut self, q: &Question) -> Option<usize> {
        let count = match (&q.entry, q.kind) {
            (None, _) => 0,
            (Some(prefix), Kind::Link | Kind::Io) => self.caches.with_prefix(prefix)?.targets.len(),
            (Some(name), _) => self.caches.domain(name)?.dcs.len(),
        };
        match q.party {
            Party::Listed { place, began } if place >= count || began >= count => None,
            _ => Some(count),
        }
    }

    /// The answer to a referral request.
    fn referral(&mut self, q: Question, status: u32, reply: &[u8]) -> Rest {
        let Some(count) = self.parties(&q) else {
            return ends(27, 0);
        };
        if severity(status) >= 2 {
            return self.failed(q, status, count);
        }
        if q.kind == Kind::Dc {
            return self.dc_reply(q, reply);
        }
        let no_referral = if q.kind == Kind::Sysvol { 22 } else { 23 };
        let reply = match read_referral(reply, q.size, &self.walk.name_asked(&q)) {
            Read::Empty => return ends(no_referral, PATH_NOT_FOUND),
            Read::Malformed => return ends(25, 0),
            Read::Holds(reply) => reply,
        };
        // step 8.1.2: what traverses no link is not stored
        if q.covered && (reply.serves == Serves::Root || components(&reply.prefix).len() <= components(q.entry.as_ref().unwrap()).len()) {
            return ends(23, PATH_NOT_COVERED);
        }
        self.set_hint(&q);
        self.walk.in_dfs = true;
        let entry = store(self.caches, reply, self.now);
        match q.kind {
            Kind::Sysvol => self.step_3(&entry),
            _ if q.covered => self.step_4(&entry),
            _ => self.step_7(&entry),
        }
    }

    fn dc_reply(&mut self, q: Question, reply: &[u8]) -> Rest {
        match read_dcs(reply, q.size) {
            Read::Empty => ends(22, PATH_NOT_FOUND),
            Read::Malformed => ends(25, 0),
            Read::Holds(dcs) => {
                store_dcs(self.caches.domain(q.entry.as_ref().unwrap()).unwrap(), dcs);
                self.walk.in_dfs = true;
                self.step_5_2_2(0)
            }
        }
    }

    /// A referral request that failed: the same party with the size doubled, the next party, or an end.
    fn failed(&mut self, q: Question, status: u32, count: usize) -> Rest {
        if status == BUFFER_OVERFLOW && q.size < MOST_SIZE {
            let size = MOST_SIZE.min(2 * q.size);
            return self.put(Question { size, ..q });
        }
        match (q.kind, q.party) {
            (Kind::Root | Kind::Link, Party::Listed { place, began }) => match (next_party(place, began, count), q.kind) {
                (Some(party), _) => self.put_request(q.kind, q.entry, party, q.covered),
                (None, Kind::Root) => ends(22, PATH_NOT_FOUND),
                (None, _) => ends(23, status),
            },
            (Kind::Root, _) if self.walk.in_dfs => ends(23, status),
            (Kind::Root, _) => ends(21, 0),
            _ => ends(22, status),
        }
    }

    /// The hint goes to the party that answered.
    fn set_hint(&mut self, q: &Question) {
        let (Some(entry), Party::Listed { place, .. }) = (&q.entry, &q.party) else {
            return;
        };
        match q.kind {
            Kind::Link | Kind::Io => self.caches.with_prefix(entry).unwrap().hint = *place,
            _ => self.caches.domain(entry).unwrap().hint = Some(*place),
        }
    }

    /// The answer to an I/O try: step 8.
    fn io(&mut self, q: Question, status: u32) -> Rest {
        let Some(count) = self.parties(&q) else {
            return ends(27, 0);
        };
        if severity(status) < 3 {
            self.set_hint(&q);
            return Rest::Ends(End { number: 20, status, tried: q.tried });
        }
        let prefix = q.entry.unwrap();
        let Party::Listed { place, began } = q.party else { unreachable!() };
        let entry = self.caches.with_prefix(&prefix).unwrap().clone();
        if status == PATH_NOT_COVERED && entry.serves == Serves::Root {
            return self.put_request(Kind::Link, Some(prefix), Party::Listed { place, began: place }, true);
        }
        if !NEXT_TARGET.contains(&status) {
            return ends(23, status);
        }
        match next_party(place, began, count) {
            Some(Party::Listed { place, began }) => self.put_io(&entry, place, began),
            _ => ends(23, status),
        }
    }
}

impl Walk {
    pub fn question(&self) -> Option<&Question> {
        match &self.rest {
            Rest::Asks(q) => Some(q),
            Rest::Ends(_) => None,
        }
    }

    pub fn end(&self) -> Option<&End> {
        match &self.rest {
            Rest::Asks(_) => None,
            Rest::Ends(e) => Some(e),
        }
    }

    pub fn end_path(&self) -> Option<&Text> {
        Some(self.end()?.tried.as_ref().unwrap_or(&self.path))
    }

    pub fn name_asked(&self, q: &Question) -> Text {
        match q.kind {
            Kind::Dc => first(&self.path, 1),
            Kind::Root | Kind::Sysvol => first(&self.path, 2),
            Kind::Link => self.path.clone(),
            Kind::Io => q.tried.clone().unwrap(),
        }
    }

    /// The party of a question; None where its entry is gone or has too few.
    pub fn party(&self, caches: &mut Caches, q: &Question) -> Option<Text> {
        Steps { caches, walk: &mut self.clone(), now: 0 }.parties(q)?;
        Some(match (&q.party, q.kind) {
            (Party::Bootstrap, _) => self.boot.clone(),
            (Party::Host, _) => components(&self.path)[0].to_vec(),
            (Party::Listed { place, .. }, Kind::Link | Kind::Io) => caches.with_prefix(q.entry.as_ref()?)?.targets[*place].path.clone(),
            (Party::Listed { place, .. }, _) => caches.domain(q.entry.as_ref()?)?.dcs[*place].clone(),
        })
    }

    /// The request of the question that waits; I/O and ends have none.
    pub fn request(&self) -> Option<Vec<u8>> {
        let q = self.question().filter(|q| q.kind != Kind::Io)?;
        Some(request(&self.name_asked(q)))
    }

    fn fits(&self, room: usize) -> Result<(), u32> {
        if self.request().is_some_and(|r| r.len() > room) { Err(10) } else { Ok(()) }
    }
}

/// A new walk. No caches: they are not in order. `room` is that of the buffer for the request.
#[allow(clippy::too_many_arguments)]
pub fn start(caches: Option<&Caches>, walk_fits: bool, path: &[u16], boot: &[u16], limit: u32, size: u32, now: u32, room: usize) -> Result<Walk, u32> {
    let mut caches = caches.ok_or(4u32)?.clone();
    let path = normalised(path).map_err(|e| if e == BadPath::Bad { 1u32 } else { 2 })?;
    if !good_settings(limit, size, boot) {
        return Err(3);
    }
    if !walk_fits {
        return Err(5);
    }
    let mut walk = Walk { limit, size, boot: boot.to_vec(), moves: 0, path, in_dfs: false, rest: ends(21, 0) };
    walk.rest = Steps { caches: &mut caches, walk: &mut walk, now }.step_1();
    walk.fits(room)?;
    Ok(walk)
}

/// An answer: to the referral request that waits where there is a reply, else to the I/O try. The caches and the walk after it.
/// No walk: it is out of form.
pub fn answer(caches: Option<&Caches>, walk: Option<&Walk>, status: u32, reply: Option<&[u8]>, now: u32, room: usize) -> Result<(Caches, Walk), u32> {
    let mut caches = caches.ok_or(4u32)?.clone();
    let mut walk = walk.ok_or(5u32)?.clone();
    let question = walk.question().ok_or(5u32)?.clone();
    if reply.is_some() == (question.kind == Kind::Io) {
        return Err(5);
    }
    let mut steps = Steps { caches: &mut caches, walk: &mut walk, now };
    let rest = match reply {
        Some(reply) => steps.referral(question, status, reply),
        None => steps.io(question, status),
    };
    walk.rest = rest;
    walk.fits(room)?;
    Ok((caches, walk))
}
