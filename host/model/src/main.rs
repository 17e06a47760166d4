//! Random walks, and between their calls listings made and read, entries expired and hints moved, given both to libdfsc.a and to the model of the rules: each
//! call's number, all lent memory after it, and what the walk then shows.
//! `--calls N` (200,000), `--seed S` (1); `--scene K` runs that scene of the seed alone.
//!
//! Each slice is lent in a heap block of exactly its length. With `--guard end` it ends at an unreadable page, with `--guard start` it begins after one;
//! then controls are run first, which must be caught (`--control SLOT`; of the slot `none` nothing is missing, and its calls are taken). `--slots` names them.
#![deny(unsafe_code)]
mod calls;
mod control;
mod lent;
mod listings;
mod random;
mod rules;
mod scenes;
#[allow(unsafe_code)]
mod slots;
mod texts;
mod upkeep;

use lent::{PLACE, WALK};
use random::Random;
use rules::caches::Caches;
use rules::look_up;
use rules::replies::request;
use rules::storing::domains_after;
use rules::walk::{answer, start, Kind, Walk};
use slots::Side;
use std::collections::BTreeMap;
use std::fmt::Debug;

const FILL: u16 = 0xEEEE;
/// 0.1.0
const VERSION: u32 = 100;

#[derive(Default)]
struct Counts {
    calls: u64,
    walks: u64,
    seen: BTreeMap<String, u64>,
}

impl Counts {
    fn see(&mut self, what: String) {
        *self.seen.entry(what).or_insert(0) += 1;
    }
}

/// Lent memory, and what the model has in its stead: no caches where one is not in order, no walk where it is out of form.
#[derive(Clone)]
struct Host {
    refs: Vec<u16>,
    doms: Vec<u16>,
    units: Vec<u16>,
    caches: Option<Caches>,
    walk: Option<Walk>,
    /// Another walk over the same caches, which waits meanwhile.
    other: (Vec<u16>, Option<Walk>),
}

type Outcome = Result<(), String>;

fn same<T: PartialEq + Debug>(what: &str, is: &[T], should: &[T]) -> Outcome {
    if is == should {
        return Ok(());
    }
    match is.iter().zip(should).position(|(a, b)| a != b) {
        Some(i) => Err(format!("{what} differs at {i}: {:?}, by the model {:?}", is[i], should[i])),
        None => Err(format!("{what} has length {}, by the model {}", is.len(), should.len())),
    }
}

// Where two caches differ: the place, and the unit in it.
fn same_places(what: &str, is: &[u16], should: &[u16]) -> Outcome {
    for (p, (a, b)) in is.chunks(PLACE).zip(should.chunks(PLACE)).enumerate() {
        same(&format!("{what}, place {p},"), a, b)?;
    }
    same(what, is, should)
}

// What a call that shows something gives: its length, or 65,536 times a refusal; and nothing past it.
fn shows<T: PartialEq + Debug + Copy>(r: &mut Random, what: &str, fill: T, should: Result<Vec<T>, u32>, ask: impl FnOnce(&mut [T]) -> u32) -> Outcome {
    let length = should.as_ref().map_or(0, Vec::len);
    let room = if r.in_hundred(15) { (length + r.below(3)).saturating_sub(1) } else { 300 };
    let mut out = vec![fill; room];
    let number = ask(&mut out);
    let should = if length > room { Err(10) } else { should };
    let mut left = should.clone().unwrap_or_default();
    left.resize(room, fill);
    same(&format!("number of {what}"), &[number], &[should.map_or_else(|e| e << 16, |t| t.len() as u32)])?;
    same(what, &out, &left)
}

impl Host {
    fn new(r: &mut Random, now: u32) -> Host {
        let caches = scenes::caches(r, now);
        let units = vec![r.one_of(&[0, FILL]); WALK];
        let (refs, doms) = (lent::referral_units(&caches.referrals), lent::domain_units(&caches.domains));
        Host { refs, doms, units, caches: Some(caches), walk: None, other: (vec![0; WALK], None) }
    }

    fn lend(&mut self, caches: Caches) {
        self.refs = lent::referral_units(&caches.referrals);
        self.doms = lent::domain_units(&caches.domains);
        self.caches = Some(caches);
    }

    fn change_walks(&mut self) {
        std::mem::swap(&mut self.units, &mut self.other.0);
        std::mem::swap(&mut self.walk, &mut self.other.1);
    }

    /// Units changed or lengths off, in the caches or in the walk.
    fn damage(&mut self, r: &mut Random, counts: &mut Counts) {
        let walked = self.walk.is_some();
        let what = match r.below(13) {
            0 | 1 => {
                scenes::poked(r, &mut self.refs, PLACE);
                "a unit of the referral cache"
            }
            2 => {
                scenes::poked(r, &mut self.doms, PLACE);
                "a unit of the domain cache"
            }
            3 => {
                let to = r.one_of(&[0, self.refs.len() - 1, self.refs.len() + 1, 33 * PLACE, self.refs.len() + PLACE]);
                self.refs.resize(to, 0);
                "length of the referral cache"
            }
            4 => {
                let to = r.one_of(&[0, self.doms.len() - 1, self.doms.len() + 1, 33 * PLACE, self.doms.len() + PLACE]);
                self.doms.resize(to, 0);
                "length of the domain cache"
            }
            5 => {
                self.units.resize(r.one_of(&[0, 31, 32, 799, 801]), 0);
                "length of the walk"
            }
            // waiting for another kind of answer, or ended otherwise: of the form or not
            6 if r.in_hundred(60) => {
                self.units[9] = r.one_of(&[0, 1, 2, 3, 4, 4, 5, 6, 19, 20, 21, 27, 28]);
                "kind or end of the walk"
            }
            6 if r.in_hundred(50) => {
                self.units[9..16].copy_from_slice(&[2, 0, 0, 0, 8192, 0, 0]);
                "a root request to a host"
            }
            6 => {
                self.units[r.one_of(&[11, 12, 15])] = 1;
                "party, round or PATH_NOT_COVERED"
            }
            7..=9 => {
                let mut caches = self.caches.clone().unwrap();
                scenes::disordered(r, &mut caches);
                self.lend(caches);
                "a rule of order"
            }
            10 if self.walk.is_some() => {
                self.units = lent::walk_units(&scenes::cut(r, self.walk.as_ref().unwrap()));
                "the path cut to one component"
            }
            _ => {
                scenes::poked(r, &mut self.units, WALK);
                "a unit of the walk"
            }
        };
        self.caches = lent::caches(&self.refs, &self.doms);
        self.walk = lent::walk(&self.units);
        let leaves = match (&self.caches, &self.walk) {
            (None, _) => "not in order",
            (_, Some(_)) => "in order and in form",
            _ if !walked => "in order, no walk yet",
            _ if lent::lacks_components(&self.units) => "out of form, but only as a walk that waits has 2 components",
            _ => "out of form",
        };
        counts.see(format!("damage to {what}: {leaves}"));
    }

    fn kind(&self) -> Option<Kind> {
        self.walk.as_ref()?.question().map(|q| q.kind)
    }

    /// All lent memory, and what the walk shows.
    fn compare(&self, r: &mut Random) -> Outcome {
        if let Some(c) = &self.caches {
            same_places("the referral cache", &self.refs, &lent::referral_units(&c.referrals))?;
            same_places("the domain cache", &self.doms, &lent::domain_units(&c.domains))?;
        }
        if let Some(w) = &self.walk {
            same("the walk", &self.units, &lent::walk_units(w))?;
        }
        if let (Some(c), Some(w)) = (&self.caches, &self.walk) {
            let place = look_up::longest(&self.refs, &w.path);
            same("the entry that is looked up", &[place.map(|i| c.referrals[i].as_ref())], &[c.find(&w.path).map(Some)])?;
        }
        let walk = self.walk.as_ref();
        let question = walk.and_then(|w| w.question()).ok_or(5u32);
        let end = walk.and_then(|w| w.end()).ok_or(5u32);
        let moves = walk.map_or(0, |w| w.moves);
        let party = self.caches.clone().ok_or(4u32).and_then(|mut c| question.and_then(|q| walk.unwrap().party(&mut c, q).ok_or(27)));
        shows(r, "the question", 7, question.map(|q| vec![lent::kind_number(q.kind), q.size, moves]), |o| calls::question(&self.units, o))?;
        shows(r, "the party", FILL, party, |o| calls::question_party(&self.refs, &self.doms, &self.units, o))?;
        shows(r, "the name", FILL, question.map(|q| walk.unwrap().name_asked(q)), |o| calls::question_name(&self.units, o))?;
        shows(r, "the end", 7, end.map(|e| vec![e.number, e.status, moves]), |o| calls::end(&self.units, o))?;
        shows(r, "the end's path", FILL, end.map(|_| walk.unwrap().end_path().unwrap().clone()), |o| calls::end_path(&self.units, o))
    }

    /// After a start or an answer: its number, and the buffer; the model's caches and walk take the place of those before.
    fn close(&mut self, before: Host, number: u32, out: &[u8], model: Result<(Option<Caches>, Walk), u32>, counts: &mut Counts) -> Outcome {
        same("the call's number", &[number], &[*model.as_ref().err().unwrap_or(&0)])?;
        let request = match model {
            Err(n) => {
                counts.see(format!("refusal {n:2}"));
                same_places("the referral cache of a refused call", &self.refs, &before.refs)?;
                same_places("the domain cache of a refused call", &self.doms, &before.doms)?;
                same("the walk of a refused call", &self.units, &before.units)?;
                None
            }
            Ok((caches, walk)) => {
                match (walk.end(), walk.question()) {
                    (Some(e), _) => counts.see(format!("end     {}", e.number)),
                    (_, Some(q)) => counts.see(format!("question {:?}", q.kind)),
                    _ => {}
                }
                let request = walk.request();
                self.caches = caches;
                self.walk = Some(walk);
                request
            }
        };
        let mut left = request.unwrap_or_default();
        left.resize(out.len(), FILL as u8);
        same("the buffer", out, &left)
    }

    // The buffer: long enough for every request, or about as long as the one that follows.
    fn room(r: &mut Random, follows: impl FnOnce() -> Option<Walk>) -> usize {
        match r.below(20) {
            0 => r.below(60),
            1 | 2 => {
                let length = follows().and_then(|w| w.request()).map_or(0, |q| q.len());
                (length + r.below(3)).saturating_sub(1)
            }
            _ => 516 + r.below(2),
        }
    }

    fn start(&mut self, r: &mut Random, now: u32, counts: &mut Counts) -> Outcome {
        let (path, boot) = (scenes::path(r, self.caches.as_ref()), scenes::boot(r));
        let (limit, size) = (scenes::limit(r), scenes::size(r));
        let fits = self.units.len() == WALK;
        let by_model = |room: usize| start(self.caches.as_ref(), fits, &path, &boot, limit, size, now, room);
        let room = Host::room(r, || by_model(516).ok());
        let model = by_model(room).map(|w| (self.caches.clone(), w));
        let before = self.clone();
        let mut out = vec![FILL as u8; room];
        let number = calls::start(&self.refs, &self.doms, &mut self.units, &path, &boot, limit, size, now, &mut out);
        counts.walks += (number == 0) as u64;
        self.close(before, number, &out, model, counts)
    }

    fn answer(&mut self, r: &mut Random, now: u32, counts: &mut Counts) -> Outcome {
        let io = (self.kind() == Some(Kind::Io)) != r.in_hundred(2);
        let status = scenes::status(r, self.kind());
        let bytes = if io { vec![] } else { scenes::reply(r, self.caches.as_ref(), self.walk.as_ref()) };
        let reply = (!io).then_some(&bytes[..]);
        let by_model = |room: usize| answer(self.caches.as_ref(), self.walk.as_ref(), status, reply, now, room);
        let room = Host::room(r, || by_model(516).ok().map(|(_, w)| w));
        let model = by_model(room).map(|(c, w)| (Some(c), w));
        let before = self.clone();
        let mut out = vec![FILL as u8; room];
        let number = match reply {
            Some(reply) => calls::answer_referral(&mut self.refs, &mut self.doms, &mut self.units, status, reply, now, &mut out),
            None => calls::answer_io(&mut self.refs, &self.doms, &mut self.units, status, now, &mut out),
        };
        self.close(before, number, &out, model, counts)
    }

    fn domain_request(r: &mut Random, counts: &mut Counts) -> Outcome {
        let mut out = vec![FILL as u8; r.below(8)];
        let request = request(&[]);
        let fits = request.len() <= out.len();
        let mut left = if fits { request } else { vec![] };
        left.resize(out.len(), FILL as u8);
        let number = calls::domain_request(&mut out);
        same("the number of a domain request", &[number], &[if fits { 0 } else { 10 }])?;
        counts.see(format!("domain request {number:2}"));
        same("the domain request", &out, &left)
    }

    fn read_domains(&mut self, r: &mut Random, counts: &mut Counts) -> Outcome {
        Host::domain_request(r, counts)?;
        let before = self.clone();
        if r.in_hundred(20) {
            // what the cache holds is not looked at, its length is
            scenes::poked(r, &mut self.doms, PLACE);
        }
        if r.in_hundred(5) {
            self.doms.resize(r.one_of(&[0, self.doms.len() - 1, self.doms.len() + 1, 33 * PLACE]), 0);
        }
        let (reply, size) = (scenes::domain_reply(r), scenes::size(r));
        let model = domains_after(&reply, size, lent::place_count(&self.doms));
        let lent = self.doms.clone();
        let number = calls::read_domains(&reply, size, &mut self.doms);
        same("the number of a domain reply", &[number], &[*model.as_ref().err().unwrap_or(&0)])?;
        counts.see(format!("domains {number:2}"));
        match model {
            Err(_) => {
                same("the domain cache of a refused call", &self.doms, &lent)?;
                *self = before;
            }
            Ok(domains) => {
                same_places("the domain cache", &self.doms, &lent::domain_units(&domains))?;
                self.caches = lent::caches(&self.refs, &self.doms);
            }
        }
        Ok(())
    }

    /// One call; caches or walk that were damaged for it are put back.
    fn call(&mut self, r: &mut Random, now: u32, starts: bool, counts: &mut Counts) -> Outcome {
        counts.calls += 1;
        let before = self.clone();
        if r.in_hundred(4) {
            self.damage(r, counts);
        } else if r.in_hundred(8) {
            let mut caches = self.caches.clone().unwrap();
            scenes::altered(r, &mut caches, self.walk.as_ref());
            self.lend(caches);
        }
        if starts {
            self.start(r, now, counts)?;
        } else {
            self.answer(r, now, counts)?;
        }
        self.compare(r)?;
        if r.in_hundred(if self.caches.is_none() { 40 } else { 6 }) {
            self.list(r, counts)?;
        }
        if self.caches.is_none() || self.units.len() != WALK || (self.walk.is_none() && before.walk.is_some()) {
            *self = before;
        }
        Ok(())
    }
}

fn scene(r: &mut Random, counts: &mut Counts) -> Outcome {
    let mut now = scenes::clock(r);
    let mut host = Host::new(r, now);
    let changes = r.one_of(&[0, 0, 30]);
    for _ in 0..1 + r.below(5) {
        host.call(r, now, true, counts)?;
        // to the end of the walk; now and then an answer after it, or a walk that is left
        for _ in 0..80 {
            let waits = host.kind().is_some();
            if r.in_hundred(if waits { 1 } else { 90 }) {
                break;
            }
            now = now.wrapping_add(r.one_of(&[0, 0, 1, 7, 300]));
            host.call(r, now, false, counts)?;
            if r.in_hundred(5) {
                counts.calls += 1;
                host.read_domains(r, counts)?;
            }
            if r.in_hundred(12) {
                host.read_listing(r, now, counts)?;
            }
            if r.in_hundred(12) {
                host.tend(r, counts)?;
            }
            if r.in_hundred(changes) {
                host.change_walks();
            }
        }
    }
    Ok(())
}

fn value<'a>(args: &'a [String], key: &str) -> Option<&'a str> {
    let at = args.iter().position(|a| a == key)?;
    Some(args.get(at + 1).unwrap_or_else(|| panic!("{key} takes a value")))
}

fn number(args: &[String], key: &str) -> Option<u64> {
    value(args, key).map(|v| v.parse().unwrap_or_else(|_| panic!("{key} takes a number")))
}

const DAMAGE: [&str; 12] = [
    "a unit of the referral cache: not in order",
    "a unit of the domain cache: not in order",
    "length of the referral cache: not in order",
    "length of the domain cache: not in order",
    "length of the walk: out of form",
    "kind or end of the walk: out of form",
    "a root request to a host: in order and in form",
    "party, round or PATH_NOT_COVERED: out of form",
    "a rule of order: not in order",
    "a unit of the walk: out of form",
    "the path cut to one component: out of form, but only as a walk that waits has 2 components",
    "the path cut to one component: in order and in form",
];

/// A run of so many calls has to have met all that is `wanted`.
const LONG: u64 = 100_000;

fn wanted() -> Vec<String> {
    let ends = (20..=27).map(|n| format!("end     {n}"));
    let refusals = [1, 2, 3, 4, 5, 10].map(|n| format!("refusal {n:2}"));
    let requests = [0, 10].map(|n| format!("domain request {n:2}"));
    let domains = [0, 3, 4, 6, 7].map(|n| format!("domains {n:2}"));
    let kinds = [Kind::Dc, Kind::Root, Kind::Link, Kind::Sysvol, Kind::Io].map(|k| format!("question {k:?}"));
    let damage = DAMAGE.map(|d| format!("damage to {d}"));
    ends.chain(refusals).chain(requests).chain(domains).chain(kinds).chain(damage).chain(listings::wanted()).chain(upkeep::wanted()).collect()
}

fn main() {
    let args: Vec<String> = std::env::args().collect();
    let side = value(&args, "--guard").map(|side| match side {
        "end" => Side::End,
        "start" => Side::Start,
        _ => panic!("--guard takes end or start"),
    });
    if args.iter().any(|a| a == "--slots") {
        println!("{}", control::SLOTS.join(" "));
        return;
    }
    if let Some(slot) = value(&args, "--control") {
        assert!(slot == control::NONE || control::SLOTS.contains(&slot), "no slot {slot}");
        std::process::exit(!control::survives(side, slot) as i32);
    }
    if let Some(side) = side {
        if !control::all(side) {
            std::process::exit(1);
        }
        calls::lend_at(side);
    }
    assert_eq!(calls::version(), VERSION, "DFSC_VERSION of include/dfsc.h");
    let calls = number(&args, "--calls").unwrap_or(200_000);
    let seed = number(&args, "--seed").unwrap_or(1);
    let only = number(&args, "--scene");
    let mut counts = Counts::default();
    let mut k = only.unwrap_or(0);
    while counts.calls < calls {
        let before = counts.calls;
        if let Err(e) = scene(&mut Random::new(seed, k), &mut counts) {
            println!("seed {seed}, scene {k}, call {} of it: {e}", counts.calls - before);
            std::process::exit(1);
        }
        if only.is_some() {
            println!("seed {seed}, scene {k}: {} calls, 0 differences", counts.calls);
            return;
        }
        k += 1;
    }
    let missing: Vec<String> = wanted().into_iter().filter(|w| calls >= LONG && !counts.seen.contains_key(w)).collect();
    for (what, n) in &counts.seen {
        println!("{n:8} {what}");
    }
    println!("seed {seed}: {} calls, {} walks, 0 differences", counts.calls, counts.walks);
    if !missing.is_empty() {
        println!("never met: {}", missing.join(", "));
        std::process::exit(1);
    }
}
