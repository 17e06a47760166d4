//! Times the proved functions and the plain ones of `plain` in one process, after their answers have been compared, and prints the ratios.
//! Exits with 1 where a goal is missed by so much that it is over its bound.
//!
//! Where its loop falls in memory makes a tenth of difference to a look-up and more. So they are timed in four builds that differ in BENCH_SHIFT alone:
//! `bench look-ups` prints the times of one build, `bench --with FILE` takes those in FILE with its own, and the least time of each function counts.
//! `--draw N` before these looks up in other caches and paths of the same kinds; without it N is 1.
mod data;
#[path = "../../model/src/rules/look_up.rs"]
mod look_up;
mod plain;

use data::{damaged, domains, path, referrals, reply, Lies, Shape};
use plain::replies::{Found, SAYS};
use std::collections::BTreeSet;
use std::hint::black_box;
use std::time::Instant;

/// Machines vary: a bound is so many times the goal.
const MARGIN: f64 = 1.5;
const ORDER: f64 = 1.5;
const LOOK_UP: f64 = 1.0;
const SIZE: u32 = 57344;

// The code that follows is moved by so many bytes.
std::arch::global_asm!(concat!(".section .text.shift,\"ax\",@progbits\n.p2align 6\n.globl shift\nshift:\n.zero ", env!("BENCH_SHIFT"), "\nret\n.text"));

extern "C" {
    fn shift();
    fn probe_in_order(cache: *const u16, units: usize) -> bool;
    fn probe_find(cache: *const u16, units: usize, path: *const u16, length: usize) -> usize;
    fn wire_referral(reply: *const u8, len: usize, size: u32, asked: *const u16, units: usize, k: usize) -> u64;
    fn wire_target(reply: *const u8, len: usize, size: u32, asked: *const u16, units: usize, i: usize, k: usize) -> u64;
}

fn in_order(cache: &[u16]) -> bool {
    unsafe { probe_in_order(cache.as_ptr(), cache.len()) }
}

fn find(cache: &[u16], path: &[u16]) -> Option<usize> {
    let i = unsafe { probe_find(cache.as_ptr(), cache.len(), path.as_ptr(), path.len()) };
    (i < 32).then_some(i)
}

fn read(r: &[u8], asked: &[u16], k: usize) -> u64 {
    unsafe { wire_referral(r.as_ptr(), r.len(), SIZE, asked.as_ptr(), asked.len(), k) }
}

fn target(r: &[u8], asked: &[u16], i: usize, k: usize) -> u64 {
    unsafe { wire_target(r.as_ptr(), r.len(), SIZE, asked.as_ptr(), asked.len(), i, k) }
}

/// Nanoseconds of one call, over a round of so many.
fn round(calls: u32, call: &mut dyn FnMut()) -> f64 {
    let t = Instant::now();
    for _ in 0..calls {
        call();
    }
    t.elapsed().as_nanos() as f64 / calls as f64
}

/// The least time of one call of each, over many short rounds in turn: other work on the machine falls into some of them only.
fn least(calls: &mut [&mut dyn FnMut()]) -> Vec<f64> {
    let counts: Vec<u32> = calls.iter_mut().map(|c| (50_000.0 / round(3, c)) as u32 + 1).collect();
    let mut best = vec![f64::MAX; calls.len()];
    for _ in 0..400 {
        for ((c, n), b) in calls.iter_mut().zip(&counts).zip(&mut best) {
            *b = b.min(round(*n, c));
        }
    }
    best
}

fn shown(ns: f64) -> String {
    match ns {
        ..100.0 => format!("{ns:.1} ns"),
        ..10_000.0 => format!("{ns:.0} ns"),
        _ => format!("{:.1} us", ns / 1e3),
    }
}

/// What is missed is printed; what is over its bound fails.
#[derive(Default)]
struct Goals {
    missed: Vec<String>,
    failed: bool,
}

impl Goals {
    fn hold(&mut self, what: String, is: f64, goal: f64, bound: f64) {
        if is > goal {
            let bound_said = if bound.is_finite() { format!(", bound {bound:.2}") } else { String::new() };
            self.missed.push(format!("{what} {is:.2}, goal {goal:.2}{bound_said}"));
            self.failed |= is > bound;
        }
    }
}

// Both sides of one thing: the time of the proved one, and the ratio.
fn pair(what: &str, mut proved: impl FnMut(), mut plain: impl FnMut()) -> (f64, f64) {
    let [proved, plain] = least(&mut [&mut proved, &mut plain])[..] else { unreachable!() };
    println!("{what}: proved {}, plain {}, ratio {:.2}", shown(proved), shown(plain), proved / plain);
    (proved, proved / plain)
}

const LONG: Shape = Shape { units: 256, targets: 8 };
const USUAL: Shape = Shape { units: 30, targets: 4 };

// The last prefix, or a path below it: the prefixes differ in their last two units.
fn looked_up(shape: Shape) -> Vec<u16> {
    let mut p = path(shape.units, 31);
    if shape.units < 250 {
        p.extend("\\docs\\a.txt".encode_utf16());
    }
    p
}

const SHAPES: [(&str, Shape); 2] = [("8 targets, texts of 256 units", LONG), ("4 targets, texts of 30 units", USUAL)];

fn compare_caches(draw: u64) {
    let mut compared = 0;
    for (_, shape) in SHAPES {
        let cache = referrals(32, shape);
        assert!(in_order(&cache) && plain::caches::referrals_in_order(&cache));
        for at in (0..cache.len()).step_by(97) {
            for v in [0u16, 1, 9, 46, 47, 92, 257] {
                let mut c = cache.clone();
                c[at] = v;
                assert_eq!(in_order(&c), plain::caches::referrals_in_order(&c), "unit {at} set to {v}");
                compared += 1;
            }
        }
        for (i, upper) in (0..40).flat_map(|i| [(i, false), (i, true)]) {
            for deeper in ["", "\\x", "\\x\\y", "x"] {
                let mut p = path(shape.units, i);
                if upper {
                    p.iter_mut().for_each(|u| if (97..=122).contains(u) { *u -= 32 });
                }
                p.extend(deeper.encode_utf16());
                let found = find(&cache, &p);
                for (name, plain) in WAYS {
                    assert_eq!(found, plain(&cache, &p), "{name}");
                }
                compared += 1;
            }
        }
    }
    for (_, cache, paths) in sought(draw) {
        assert!(in_order(&cache));
        for p in &paths {
            let found = find(&cache, p);
            for (name, plain) in WAYS {
                assert_eq!(found, plain(&cache, p), "{name}");
            }
            compared += 1;
        }
    }
    println!("order tests and look-ups compared: {compared}");
}

fn order_tests(goals: &mut Goals) {
    for (name, shape) in SHAPES {
        let cache = referrals(32, shape);
        let what = format!("order test of 32 entries, {name}");
        let (_, ratio) = pair(&what, || { black_box(in_order(black_box(&cache))); }, || { black_box(plain::caches::referrals_in_order(black_box(&cache))); });
        goals.hold(what, ratio, ORDER, ORDER * MARGIN);
    }
}

/// The model's look-up, which is the goal in each row (decision 93), and one that is tuned to prefixes of one length.
const WAYS: [(&str, fn(&[u16], &[u16]) -> Option<usize>); 2] = [("the model's", look_up::longest), ("tuned to prefixes of one length", plain::caches::find)];

/// Caches of 32 entries, each with the paths that are looked up in it one after the other.
fn sought(draw: u64) -> [(&'static str, Vec<u16>, Vec<Vec<u16>>); 6] {
    let mixed = |what, lies, capitals| {
        let (cache, paths) = data::mixed(draw, lies, capitals);
        (what, cache, paths)
    };
    [
        ("one path, itself a prefix, prefixes of 256 units", referrals(32, LONG), vec![looked_up(LONG)]),
        ("one path, below a prefix, prefixes of 30 units", referrals(32, USUAL), vec![looked_up(USUAL)]),
        mixed("512 paths below mixed prefixes, an eighth in capitals", Lies::Below, 8),
        mixed("512 paths below mixed prefixes, a third in capitals", Lies::Below, 3),
        mixed("512 paths equal to mixed prefixes, an eighth in capitals", Lies::Equal, 8),
        mixed("512 paths beside mixed prefixes, an eighth in capitals", Lies::Beside, 8),
    ]
}

/// Nanoseconds of a look-up: the proved one, then the plain ones.
type Times = [f64; WAYS.len() + 1];

// Looks up one path after the other.
fn in_turn<'a>(cache: &'a [u16], paths: &'a [Vec<u16>], find: impl Fn(&[u16], &[u16]) -> Option<usize> + 'a) -> impl FnMut() + 'a {
    let mut next = 0;
    move || {
        next = if next + 1 < paths.len() { next + 1 } else { 0 };
        black_box(find(black_box(cache), black_box(&paths[next])));
    }
}

// In each row.
fn look_ups(draw: u64) -> Vec<Times> {
    let times = sought(draw).map(|(_, cache, paths)| {
        let (mut proved, mut plain) = (in_turn(&cache, &paths, find), WAYS.map(|(_, way)| in_turn(&cache, &paths, way)));
        let mut calls: Vec<&mut dyn FnMut()> = vec![&mut proved];
        calls.extend(plain.iter_mut().map(|c| c as &mut dyn FnMut()));
        least(&mut calls).try_into().unwrap()
    });
    times.into()
}

// The goal is the model's look-up, over all rows together and in each; the bound too.
fn hold_look_ups(goals: &mut Goals, builds: &[Vec<Times>]) {
    println!("look-up in 32 entries, least of {} builds", builds.len());
    let mut all = [0.0; WAYS.len() + 1];
    let mut row = |what: &str, times: Times| {
        print!("  {what}: proved {}", shown(times[0]));
        for ((name, _), plain) in WAYS.iter().zip(&times[1..]) {
            print!("; {name} {}, ratio {:.2}", shown(*plain), times[0] / plain);
        }
        println!();
        goals.hold(format!("look-up, {what}, against the model's"), times[0] / times[1], LOOK_UP, LOOK_UP * MARGIN);
    };
    for (k, (what, ..)) in sought(1).iter().enumerate() {
        let times: Times = std::array::from_fn(|way| builds.iter().map(|b| b[k][way]).fold(f64::MAX, f64::min));
        row(what, times);
        all.iter_mut().zip(times).for_each(|(sum, time)| *sum += time);
    }
    row("all of these", all);
}

// The times of other builds, as `bench look-ups` printed them.
fn other_builds(file: &str) -> Vec<Vec<Times>> {
    let text = std::fs::read_to_string(file).unwrap();
    let builds = text.lines().filter_map(|l| l.strip_prefix("ns ")).map(|l| {
        let ns: Vec<f64> = l.split(' ').map(|n| n.parse().unwrap()).collect();
        let rows: Vec<Times> = ns.chunks(WAYS.len() + 1).map(|row| row.try_into().unwrap()).collect();
        assert_eq!(rows.len(), sought(1).len(), "{file} has the times of other rows");
        rows
    });
    let builds: Vec<_> = builds.collect();
    assert!(!builds.is_empty(), "{file} has the times of no other build");
    builds
}

struct Start<'a> {
    refs: &'a [u16],
    doms: &'a [u16],
    path: &'a [u16],
    limit: u32,
    size: u32,
    clock: u32,
    room: usize,
}

const BOOT: [u16; 3] = [100, 99, 49];

type Call = fn(&[u16], &[u16], &mut [u16], &[u16], &[u16], u32, u32, u32, &mut [u8]) -> u32;

impl Start<'_> {
    fn by(&self, call: Call) -> (u32, Vec<u16>, Vec<u8>) {
        let (mut walk, mut out) = (vec![0xEEEE; 800], vec![0xEE; self.room]);
        let number = call(self.refs, self.doms, &mut walk, self.path, &BOOT, self.limit, self.size, self.clock, &mut out);
        (number, walk, out)
    }

    // Both give the same; the number, and what the walk then rests at.
    fn same(&self) -> (u32, u16) {
        let (proved, plain) = (self.by(dfsc::calls::start), self.by(plain::start::start));
        assert_eq!(proved.0, plain.0, "number");
        assert!(proved == plain, "walk or request");
        (proved.0, if proved.0 == 0 { proved.1[9] } else { 0 })
    }

    fn call(&self, call: Call) -> impl FnMut() + '_ {
        let (mut walk, mut out) = ([0; 800], [0; 516]);
        move || {
            black_box(call(black_box(self.refs), black_box(self.doms), &mut walk, black_box(self.path), &BOOT, self.limit, self.size, self.clock, &mut out));
        }
    }
}

fn starts() {
    let mut compared = 0;
    let mut seen = BTreeSet::new();
    let doms = domains(4);
    for variant in 0..256 {
        let refs = data::varied(variant);
        for text in data::PATHS {
            let path: Vec<u16> = text.encode_utf16().collect();
            for (limit, clock, room) in [(4, 100, 516), (1, 500, 516), (64, 100, 20), (2, 300, 516)] {
                seen.insert(Start { refs: &refs, doms: &doms, path: &path, limit, size: 8192, clock, room }.same());
                compared += 1;
            }
        }
    }
    let refs = referrals(2, USUAL);
    for (limit, size) in [(0, 8192), (65, 8192), (4, 1023), (4, 57345)] {
        seen.insert(Start { refs: &refs, doms: &doms, path: &path(30, 0), limit, size, clock: 0, room: 516 }.same());
    }
    for units in [255, 256, 257, 258] {
        seen.insert(Start { refs: &refs, doms: &doms, path: &path(units, 0), limit: 4, size: 8192, clock: 0, room: 516 }.same());
    }
    for at in 0..doms.len() / 13 {
        let mut bad = doms.clone();
        bad[13 * at] ^= 1;
        seen.insert(Start { refs: &refs, doms: &bad, path: &path(30, 0), limit: 4, size: 8192, clock: 0, room: 516 }.same());
        compared += 1;
    }
    println!("starts compared: {}", compared + 8);
    // each question, each end of a start, each refusal
    let all = [1, 2, 3, 4, 5, 21, 24, 26].map(|rest| (0, rest)).into_iter().chain([1, 2, 3, 4, 10].map(|number| (number, 0)));
    assert_eq!(seen, all.collect::<BTreeSet<_>>());
    let rows = [
        ("32 full places each, texts of 256 units, domain names of 4 to 24", LONG, domains(32)),
        ("32 full places each, texts of 256 units, domain names of 255", LONG, data::long_domains(32)),
        ("8 places, 4 targets, texts of 30 units", USUAL, domains(8)),
    ];
    for (name, shape, doms) in rows {
        let places = doms.len() / dfsc::PLACE_UNITS;
        let refs = referrals(places, shape);
        let mut p = path(shape.units, places - 1);
        if shape.units < 250 {
            p.extend("\\docs\\a.txt".encode_utf16());
        }
        let start = Start { refs: &refs, doms: &doms, path: &p, limit: 16, size: 8192, clock: 0, room: 516 };
        start.same();
        assert_eq!(start.by(dfsc::calls::start).1[9], 5, "the I/O is asked for at once");
        pair(&format!("start on warm caches, {name}"), start.call(dfsc::calls::start), start.call(plain::start::start));
    }
}

// Both readers find the same; what the reply is read as.
fn same_reading(r: &[u8], asked: &[u16]) -> u64 {
    let Found { answer, version, bits, count, ttl, prefix, targets, kept } = plain::replies::read(r, SIZE, asked);
    assert_eq!(read(r, asked, 0), answer);
    if answer != SAYS {
        return answer;
    }
    let plain = [version as u64, bits, count as u64, ttl as u64, prefix.from as u64, prefix.units as u64, targets as u64];
    assert_eq!((1..=7).map(|k| read(r, asked, k)).collect::<Vec<u64>>(), plain);
    for (i, (span, opens)) in kept[..targets].iter().enumerate() {
        assert_eq!([0, 1, 2].map(|k| target(r, asked, i, k)), [span.from as u64, span.units as u64, *opens as u64]);
    }
    answer
}

fn replies(goals: &mut Goals) {
    let asked = path(30, 7);
    let mut compared = [0; 3];
    for n in [1, 2, 8, 9, 256] {
        for version in [3, 4] {
            let r = reply(version, &asked, n, n as u32 % 8);
            assert_eq!(same_reading(&r, &asked), SAYS);
            for k in 0..if n > 8 { 500 } else { 4000 } {
                compared[same_reading(&damaged(&r, k), &asked) as usize] += 1;
            }
        }
    }
    println!("damaged replies compared: {} malformed, {} without an entry, {} read", compared[0], compared[1], compared[2]);
    assert!(compared.iter().all(|n| *n > 0));
    for (n, goal) in [(1, Some(1_000.0)), (8, None), (256, Some(60_000.0))] {
        let r = reply(3, &asked, n, 3);
        let what = format!("reading a reply of {n} targets, {} bytes", r.len());
        let (ns, _) = pair(&what, || { black_box(read(black_box(&r), black_box(&asked), 0)); }, || { black_box(plain::replies::read(black_box(&r), SIZE, black_box(&asked)).answer); });
        if let Some(goal) = goal {
            goals.hold(format!("{what}, ns"), ns, goal, goal * MARGIN);
        }
    }
}

// The domain replies that take longest.
fn domain_replies() {
    for (at_their_ends, at) in [(true, "ends"), (false, "beginnings")] {
        let r = data::slow_domains(at_their_ends);
        let mut doms = vec![0; 32 * dfsc::PLACE_UNITS];
        let mut call = || assert_eq!(dfsc::calls::read_domains(black_box(&r), SIZE, black_box(&mut doms)), 0);
        let ns = (0..20).map(|_| round(1, &mut call)).fold(f64::MAX, f64::min);
        println!("reading a domain reply of 32 names of 255 units that differ at their {at}, {} bytes: {}", r.len(), shown(ns));
    }
}

fn main() {
    black_box(shift as *const ());
    let args: Vec<String> = std::env::args().skip(1).collect();
    let args: Vec<&str> = args.iter().map(String::as_str).collect();
    let (draw, args) = match args[..] {
        ["--draw", n, ref rest @ ..] => (n.parse().expect("the number of a draw"), rest),
        _ => (1, &args[..]),
    };
    compare_caches(draw);
    let mut builds = vec![look_ups(draw)];
    match args[..] {
        [] => {}
        ["look-ups"] => {
            let ns: Vec<String> = builds[0].iter().flatten().map(f64::to_string).collect();
            println!("ns {}", ns.join(" "));
            return;
        }
        ["--with", file] => builds.extend(other_builds(file)),
        _ => panic!("usage: bench [--draw N] [look-ups | --with FILE]"),
    }
    let mut goals = Goals::default();
    order_tests(&mut goals);
    hold_look_ups(&mut goals, &builds);
    starts();
    replies(&mut goals);
    domain_replies();
    for m in &goals.missed {
        println!("missed: {m}");
    }
    if goals.failed {
        println!("a bound is passed");
        std::process::exit(1);
    }
}
