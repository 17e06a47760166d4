//! Runs vectors/scenarios.txt through libdfsc.a: each call, what it gives, and all lent memory after it. Then the stack that the calls took.
mod caches;
mod calls;
mod lines;
mod stack;

use caches::Caches;
use dfsc::{PLACE_UNITS, WALK_UNITS as WALK};
use lines::{bytes, field, has, hex_number, number, scenarios, units, Call, Scenario};

const KINDS: [&str; 6] = ["", "dc", "root", "link", "sysvol", "io"];
const FILL: u16 = 0xEEEE;
const GONE: u32 = 27 << 16;

/// A host of one scenario: all that it lends.
struct Host {
    caches: Caches,
    walk: Vec<u16>,
    // the limit of the walk, and the bytes of stack that its last measured call took
    limit: u32,
    took: usize,
}

/// What the walk waits for, or its end, as the vectors print it; or what is wrong with how it is shown.
impl Host {
    fn new(caches: &[&str]) -> Host {
        Host { caches: Caches::read(caches), walk: vec![0; WALK], limit: 0, took: 0 }
    }

    // A text that is shown: the whole of it, 10 with one unit less, and nothing written past it.
    fn text(&self, what: &str, ask: impl Fn(&mut [u16]) -> u32) -> Result<Vec<u16>, String> {
        let mut room = vec![FILL; 300];
        let n = ask(&mut room);
        if n >= 65536 {
            return Err(format!("{what} is refused with {}", n >> 16));
        }
        let n = n as usize;
        if room[n..].iter().any(|u| *u != FILL) {
            return Err(format!("{what} is written past its end"));
        }
        let mut tight = vec![FILL; n];
        if ask(&mut tight) != n as u32 || tight != room[..n] {
            return Err(format!("{what} is another in a buffer of its length"));
        }
        let mut short = vec![FILL; n.saturating_sub(1)];
        if n > 0 && (ask(&mut short) != 10 << 16 || short.iter().any(|u| *u != FILL)) {
            return Err(format!("{what} does not give 10 in a short buffer"));
        }
        room.truncate(n);
        Ok(room)
    }

    fn numbers(&self, what: &str, ask: impl Fn(&mut [u32]) -> u32) -> Result<Option<[u32; 3]>, String> {
        let mut short = [7u32; 2];
        let mut out = [7u32; 4];
        let n = ask(&mut out);
        if n == 5 << 16 {
            return if out == [7; 4] { Ok(None) } else { Err(format!("{what} is refused and writes")) };
        }
        if n != 3 || out[3] != 7 || ask(&mut short) != 10 << 16 || short != [7; 2] {
            return Err(format!("{what} gives {n:#x}"));
        }
        Ok(Some([out[0], out[1], out[2]]))
    }

    fn party(&self) -> u32 {
        calls::question_party(&self.caches.refs, &self.caches.doms, &self.walk, &mut [0; 256])
    }

    fn waits(&self) -> Result<Option<[u32; 3]>, String> {
        self.numbers("the question", |o| calls::question(&self.walk, o))
    }

    // A start and a referral answer of a walk that is measured.
    fn start(&mut self, path: &str, limit: u32, buffer: usize) -> u32 {
        stack::most();
        let n = calls::start(&self.caches.refs, &self.caches.doms, &mut self.walk, &units(path), &units("dc1"), limit, 8192, 100, &mut vec![0; buffer]);
        self.took = stack::most()["dfsc_start"].any;
        n
    }

    fn answer(&mut self, reply: &[u8], buffer: usize) -> u32 {
        stack::most();
        let n = calls::answer_referral(&mut self.caches.refs, &mut self.caches.doms, &mut self.walk, 0, reply, 100, &mut vec![0; buffer]);
        self.took = stack::most()["dfsc_answer_referral"].any;
        n
    }

    // The walk is at rest as the vectors say.
    fn shows(&self, gives: &str) -> Result<(), String> {
        let same = |what: &str, is: Vec<u16>, key: &str| {
            if is == units(field(gives, key)) { Ok(()) } else { Err(format!("{what} is {}", String::from_utf16_lossy(&is))) }
        };
        let question = self.waits()?;
        let end = self.numbers("the end", |o| calls::end(&self.walk, o))?;
        if question.is_some() == end.is_some() || question.is_some() != has(gives, "ask") {
            return Err("the walk is not at rest so".into());
        }
        if let Some([kind, size, moves]) = question {
            let asked = if field(gives, "ask") == "io" { 0 } else { number(gives, "size") };
            if (KINDS[kind as usize], size, moves) != (field(gives, "ask"), asked, number(gives, "moves")) {
                return Err(format!("kind {kind}, size {size}, moves {moves}"));
            }
            same("the party", self.text("the party", |o| calls::question_party(&self.caches.refs, &self.caches.doms, &self.walk, o))?, "to")?;
            same("the name", self.text("the name", |o| calls::question_name(&self.walk, o))?, "name")?;
            return if calls::end_path(&self.walk, &mut [0; 256]) == 5 << 16 { Ok(()) } else { Err("a walk that waits has an end".into()) };
        }
        let [end, status, moves] = end.unwrap();
        if (end, status, moves) != (number(gives, "end"), hex_number(gives, "status"), number(gives, "moves")) {
            return Err(format!("end {end}, status {status:08X}, moves {moves}"));
        }
        same("the path", self.text("the path", |o| calls::end_path(&self.walk, o))?, "path")?;
        if calls::question_name(&self.walk, &mut [0; 256]) == 5 << 16 && matches!(self.party() >> 16, 4 | 5) {
            Ok(())
        } else {
            Err("a walk that has ended has a question".into())
        }
    }

    // A start or an answer: its number, the output buffer, and what the walk then shows.
    fn move_on(&mut self, c: &Call) -> Result<(), String> {
        let out_len = number(c.line, "buffer") as usize;
        let mut out = vec![0xEEu8; out_len];
        let clock = number(c.line, "now");
        let before = (self.caches.clone(), self.walk.clone());
        let gone = self.party() == GONE;
        let word = c.line.split(' ').next().unwrap();
        let limit = if word == "start" { number(c.line, "limit") } else { self.limit };
        let n = stack::boxed(limit <= BOX_LIMIT && out_len >= LONGEST, || match word {
            "start" => calls::start(&self.caches.refs, &self.caches.doms, &mut self.walk, &units(field(c.line, "path")), &units(field(c.line, "boot")),
                number(c.line, "limit"), number(c.line, "size"), clock, &mut out),
            "referral" => calls::answer_referral(&mut self.caches.refs, &mut self.caches.doms, &mut self.walk, hex_number(c.line, "status"),
                &bytes(field(c.line, "reply")), clock, &mut out),
            _ => calls::answer_io(&mut self.caches.refs, &self.caches.doms, &mut self.walk, hex_number(c.line, "status"), clock, &mut out),
        });
        if n == 0 {
            self.limit = limit;
        }
        if has(c.gives, "refused") {
            if n != number(c.gives, "refused") {
                return Err(format!("the call gives {n}"));
            }
            let same = self.caches == before.0 && self.walk == before.1 && out.iter().all(|b| *b == 0xEE);
            return if same { Ok(()) } else { Err("the call is refused and changes lent memory".into()) };
        }
        if n != 0 {
            return Err(format!("the call is refused with {n}"));
        }
        let request = bytes(field(c.gives, "request"));
        if out[..request.len()] != request[..] || out[request.len()..].iter().any(|b| *b != 0xEE) {
            return Err("the output buffer".into());
        }
        // the party is gone exactly where the answer ends 27
        if !c.line.starts_with("start") && gone != (field(c.gives, "end") == "27") {
            return Err("the party and end 27 do not agree".into());
        }
        Ok(())
    }

    // The listing: its number, its text, and a buffer that is written no further; in a buffer of its length too, and 10 with one unit less.
    fn lists(&self, c: &Call) -> Result<(), String> {
        let mut out = vec![FILL; number(c.line, "room") as usize];
        let n = calls::list(&self.caches.refs, &mut out);
        if has(c.gives, "refused") {
            let same = n == (number(c.gives, "refused") as u64) << 32 && out.iter().all(|u| *u == FILL);
            return if same { Ok(()) } else { Err(format!("the call gives {n:#x}")) };
        }
        let text = units(c.gives.strip_prefix("listing=").ok_or("no listing is given")?);
        if n != text.len() as u64 || out[..text.len()] != text[..] || out[text.len()..].iter().any(|u| *u != FILL) {
            return Err(format!("the call gives {n:#x}"));
        }
        let mut tight = vec![FILL; text.len()];
        if calls::list(&self.caches.refs, &mut tight) != n || tight != text {
            return Err("another text in a buffer of its length".into());
        }
        let mut short = vec![FILL; text.len().saturating_sub(1)];
        if n > 0 && (calls::list(&self.caches.refs, &mut short) != 10 << 32 || short.iter().any(|u| *u != FILL)) {
            return Err("no 10 in a short buffer".into());
        }
        Ok(())
    }

    // A text that was read is listed again as the same text.
    fn reads(&mut self, c: &Call) -> Result<(), String> {
        let text = units(c.line.strip_prefix("read-listing text=").ok_or("no text")?);
        let n = calls::read(&text, &mut self.caches.refs);
        if n != if c.gives == "ok" { 0 } else { number(c.gives, "refused") } {
            return Err(format!("the call gives {n}"));
        }
        let mut out = vec![FILL; text.len()];
        if n == 0 && (calls::list(&self.caches.refs, &mut out) != text.len() as u64 || out != text) {
            return Err("the text is not listed again".into());
        }
        Ok(())
    }

    fn call(&mut self, c: &Call) -> Result<(), String> {
        let word = c.line.split(' ').next().unwrap();
        let after = if c.after.is_empty() { self.caches.clone() } else { Caches::read(&c.after) };
        match word {
            "set" => self.caches = after.clone(),
            "list" => self.lists(c)?,
            "read-listing" => self.reads(c)?,
            "read-domains" => {
                let n = calls::read_domains(&bytes(field(c.line, "reply")), number(c.line, "size"), &mut self.caches.doms);
                if n != if c.gives == "ok" { 0 } else { number(c.gives, "refused") } {
                    return Err(format!("the call gives {n}"));
                }
            }
            _ => self.move_on(c)?,
        }
        if self.caches != after {
            return Err("the caches after it".into());
        }
        if has(c.gives, "ask") || has(c.gives, "end") {
            self.shows(c.gives)?;
        }
        Ok(())
    }
}

struct Counts {
    calls: usize,
    wrong: usize,
}

fn run(s: &Scenario, counts: &mut Counts) {
    let mut host = Host::new(&s.caches);
    for c in &s.calls {
        match host.call(c) {
            Ok(()) => counts.calls += 1,
            Err(e) => {
                counts.wrong += 1;
                println!("scenario {}: {:.100}: given {:.100}: {e}", s.name, c.line, c.gives);
                return;
            }
        }
    }
}

// The bytes of stack that any call may take: in a box of 8 KB, with a limit of 32 moves at most and a buffer for every request; and with any limit and buffer.
const BOX: usize = 8192;
const BOX_LIMIT: u32 = 32;
const ANY: usize = 16384;
const LONGEST: usize = 516;

// A cache of two places, the first a link that leads to itself by Interlink, and a domain with a DC.
const WARM: [&str; 6] = [
    "referrals places=2",
    "entry place=0 prefix=\\a\\b kind=link interlink=1 failback=0 ttl=300 taken=100 hint=0",
    "target boundary=0 path=\\a\\b",
    "domains places=1",
    "domain place=0 name=d hint=0",
    "dc name=dc0",
];

// A walk that goes round by interlinks in a warm cache: `limit` moves, no question, end 24. The bytes of stack that its start took.
fn round(limit: u32, buffer: usize) -> usize {
    let mut host = Host::new(&WARM);
    let n = host.start("\\a\\b\\c", limit, buffer);
    assert_eq!(n, 0);
    host.shows(&format!("end=24 status=00000000 path=\\a\\b\\c moves={limit}")).unwrap();
    host.took
}

// A reply of version 3, with an entry for each target; `kind` is 1 for a root, 0 for a link by Interlink.
fn reply(kind: u16, prefix: &str, targets: &[String]) -> Vec<u8> {
    let text = |s: &str| -> Vec<u8> { units(s).iter().chain(&[0]).flat_map(|u| u.to_le_bytes()).collect() };
    let mut numbers = vec![0u16, targets.len() as u16, 1, 0];
    let mut texts = text(prefix);
    for (i, target) in targets.iter().enumerate() {
        let after = 34 * (targets.len() - i);
        numbers.extend([3, 34, kind, 0, 300, 0, after as u16, after as u16, (after + texts.len()) as u16, 0, 0, 0, 0, 0, 0, 0, 0]);
        texts.extend(text(target));
    }
    numbers.iter().flat_map(|u| u.to_le_bytes()).chain(texts).collect()
}

// A DC reply of version 3 with these names.
fn dc_reply(names: &[&str]) -> Vec<u8> {
    let text = |s: &str| -> Vec<u8> { units(s).iter().chain(&[0]).flat_map(|u| u.to_le_bytes()).collect() };
    let special = text("\\d");
    let numbers = [0u16, 1, 0, 0, 3, 18, 0, 2, 300, 0, 18, names.len() as u16, 18 + special.len() as u16];
    numbers.iter().flat_map(|u| u.to_le_bytes()).chain(special).chain(names.iter().flat_map(|n| text(n))).collect()
}

// The same after an answer: a root request to a DC brings a link that leads into the round.
fn round_after(limit: u32, buffer: usize) -> usize {
    let mut host = Host::new(&WARM);
    assert_eq!(host.start("\\d\\x\\c", limit, buffer), 0);
    assert_eq!(host.waits().unwrap(), Some([2, 8192, 1]));
    assert_eq!(host.answer(&reply(0, "\\d\\x", &["\\a\\b".to_string()]), buffer), 0);
    let used = host.took;
    host.shows(&format!("end=24 status=00000000 path=\\a\\b\\c moves={limit}")).unwrap();
    used
}

// An answer that refreshes an expired root of eight targets by the same eight, which are compared one inside the other.
fn refreshed(limit: u32, buffer: usize) -> usize {
    let targets: Vec<String> = (0..8).map(|i| format!("\\t{i}\\s")).collect();
    let entry: Vec<String> = targets.iter().map(|t| format!("target boundary=0 path={t}")).collect();
    let mut lines = vec!["referrals places=1", "entry place=0 prefix=\\d\\x kind=root interlink=0 failback=0 ttl=1 taken=1 hint=7"];
    lines.extend(entry.iter().map(String::as_str));
    lines.extend(&WARM[3..]);
    let mut host = Host::new(&lines);
    assert_eq!(host.start("\\d\\x\\c", limit, buffer), 0);
    assert_eq!(host.waits().unwrap(), Some([2, 8192, 1]));
    assert_eq!(host.answer(&reply(1, "\\d\\x", &targets), buffer), 0);
    let used = host.took;
    // the hint is kept, so the targets were equivalent
    host.shows("ask=io to=\\t7\\s name=\\t7\\s\\c moves=2").unwrap();
    used
}

// An answer that stores DCs and asks the first of them.
fn dcs_stored(limit: u32, buffer: usize) -> usize {
    let mut host = Host::new(&["referrals places=1", "domains places=1", "domain place=0 name=d hint=none"]);
    assert_eq!(host.start("\\d\\x\\c", limit, buffer), 0);
    assert_eq!(host.waits().unwrap(), Some([1, 8192, 1]));
    assert_eq!(host.answer(&dc_reply(&["dc5", "dc6"]), buffer), 0);
    let used = host.took;
    host.shows("ask=root to=dc5 name=\\d\\x size=8192 moves=2").unwrap();
    used
}

// Calls that no scenario has: memory of another length, a domain request, entries expired and a hint moved.
fn others() -> usize {
    let mut wrong = 0;
    let mut says = |ok: bool, what: &str| {
        if !ok {
            wrong += 1;
            println!("{what}");
        }
    };
    let cache = vec![0u16; PLACE_UNITS];
    for len in [0, 31, 32, 799, 801] {
        let mut walk = vec![FILL; len];
        let mut out = [0xEEu8; 516];
        let n = calls::start(&cache, &cache, &mut walk, &units("\\a\\b"), &units("dc1"), 4, 8192, 1, &mut out);
        says(n == 5 && walk.iter().all(|u| *u == FILL) && out.iter().all(|b| *b == 0xEE), &format!("a start with {len} units"));
        let n = calls::start(&cache, &cache, &mut walk, &units("a"), &units("dc1"), 4, 8192, 1, &mut out);
        says(n == 1, &format!("a bad path with {len} units"));
        let mut refs = cache.clone();
        let n = calls::answer_io(&mut refs, &cache, &mut walk, 0, 1, &mut out);
        says(n == 5 && refs == cache && walk.iter().all(|u| *u == FILL), &format!("an I/O answer with {len} units"));
        says(calls::end(&walk, &mut [0; 3]) == 5 << 16, &format!("the end of {len} units"));
    }
    // each unit of the packed form that says another thing than the form allows
    let mut walk = vec![0u16; WALK];
    let mut out = [0u8; 516];
    says(calls::start(&cache, &cache, &mut walk, &units("\\a\\b"), &units("dc1"), 4, 8192, 1, &mut out) == 0, "a start");
    for i in 0..32 {
        let mut other = walk.clone();
        other[i] = if i == 9 { 6 } else { 900 };
        says(calls::question(&other, &mut [0; 3]) == 5 << 16, &format!("unit {i} changed"));
    }
    let mut request = [0xEEu8; 6];
    says(calls::domain_request(&mut request) == 0 && request == [4, 0, 0, 0, 0xEE, 0xEE], "the domain request");
    says(calls::domain_request(&mut request[..3]) == 10 && request[..3] == [4, 0, 0], "a short domain request");
    // full caches: each call goes over every place
    let mut refs = vec![0u16; 32 * PLACE_UNITS];
    let entry = |i: usize| format!("prefix=\\f{i}\\{}\nkind=root\ninterlink=0\nfailback=0\nttl=300\ntaken=1\nhint=0\ntarget=\\t\\s\n", "p".repeat(200));
    says(calls::read(&units(&(0..32).map(entry).collect::<String>()), &mut refs) == 0, "32 entries read");
    let (before, prefix) = (refs.clone(), units(&format!("\\\\F31\\{}\\", "P".repeat(200))));
    says(calls::expire(&mut refs, &prefix) == 0 && refs.iter().zip(&before).filter(|(a, b)| a != b).count() == 1, "an entry expired");
    says(calls::expire(&mut refs, &units("\\a\\b")) == 27 && calls::expire(&mut refs, &units("a")) == 1, "no entry, no path");
    says(calls::expire_all(&mut refs) == 0 && refs.chunks(PLACE_UNITS).all(|p| p[22] == 0 && p[24] == 1), "all expired");
    let mut doms = vec![0u16; 32 * PLACE_UNITS];
    for (i, place) in doms.chunks_mut(PLACE_UNITS).enumerate() {
        (place[0], place[1], place[2], place[9]) = (2, 1, 1, 2);
        place[32..34].copy_from_slice(&[b'd' as u16, b'0' as u16 + i as u16]);
        (place[288], place[544]) = (b'x' as u16, b'y' as u16);
    }
    let last = [b'D' as u16, b'0' as u16 + 31];
    says(calls::next_dc(&mut doms, &last) == 0 && doms[31 * PLACE_UNITS + 10] == 1, "the next DC");
    says(calls::next_dc(&mut doms, &last) == 0 && doms[31 * PLACE_UNITS + 10] == 0 && calls::next_dc(&mut doms, &[b'e' as u16]) == 27, "the first DC again");
    doms[5] = 1;
    says(calls::next_dc(&mut doms, &last) == 4 && calls::expire_all(&mut doms[1..]) == 4 && calls::expire(&mut doms, &[]) == 4, "caches that are not in order");
    wrong
}

fn all() -> bool {
    let path = format!("{}/../../vectors/scenarios.txt", env!("CARGO_MANIFEST_DIR"));
    let text = std::fs::read_to_string(path).expect("vectors/scenarios.txt");
    let list = scenarios(&text);
    let mut counts = Counts { calls: 0, wrong: others() };
    for s in &list {
        run(s, &mut counts);
    }
    println!("walks: {} scenarios, {} calls equal", list.len(), counts.calls);
    let mut within = |what: &str, n: usize, bound: usize| {
        println!("stack: {what} {n} bytes, of {bound}");
        if n >= bound {
            counts.wrong += 1;
            println!("stack: {what}: {bound} bytes or more");
        }
    };
    // a start and an answer go by the limit and the buffer, the other calls by neither
    for (name, most) in stack::most() {
        let walks = ["dfsc_start", "dfsc_answer_referral", "dfsc_answer_io"].contains(&name);
        within(name, most.any, if walks { ANY } else { BOX });
        if walks {
            within(&format!("{name}, limit {BOX_LIMIT} at most, a buffer of {LONGEST} bytes at least"), most.boxed, BOX);
        }
    }
    for limit in [1, 5] {
        within(&format!("a start of {limit} moves round"), round(limit, LONGEST), BOX);
    }
    for (limit, buffer, bound) in [(BOX_LIMIT, LONGEST, BOX), (64, LONGEST, ANY), (64, LONGEST - 1, ANY)] {
        let with = format!("limit {limit}, a buffer of {buffer} bytes");
        within(&format!("{with}: a start, all moves round"), round(limit, buffer), bound);
        within(&format!("{with}: an answer after 1 move, the others round"), round_after(limit, buffer), bound);
        within(&format!("{with}: an answer that refreshes eight targets by the same eight"), refreshed(limit, buffer), bound);
        within(&format!("{with}: an answer that stores DCs"), dcs_stored(limit, buffer), bound);
    }
    counts.wrong == 0
}

fn main() {
    let ok = std::thread::Builder::new().stack_size(1 << 20).spawn(all).unwrap().join().unwrap();
    std::process::exit(!ok as i32);
}
