// Replies of real servers, cut, damaged and long ones, read by the proved library and compared with an independent decoding.
mod json;

use json::Json;
use std::time::Instant;

extern "C" {
    fn wire_referral(reply: *const u8, len: usize, size: u32, asked: *const u16, units: usize, k: usize) -> u64;
    fn wire_target(reply: *const u8, len: usize, size: u32, asked: *const u16, units: usize, i: usize, k: usize) -> u64;
    fn wire_dcs(reply: *const u8, len: usize, size: u32, k: usize) -> u64;
    fn wire_dc(reply: *const u8, len: usize, size: u32, i: usize, k: usize) -> u64;
    fn wire_domains(reply: *const u8, len: usize, size: u32) -> u64;
    fn wire_domain(reply: *const u8, len: usize, size: u32, i: usize, k: usize) -> u64;
}

const SIZE: u32 = 57344;
const MALFORMED: u64 = 0;
const NOTHING: u64 = 1;
const SAYS: u64 = 2;

fn head(r: &[u8], asked: &[u16], size: u32, k: usize) -> u64 {
    unsafe { wire_referral(r.as_ptr(), r.len(), size, asked.as_ptr(), asked.len(), k) }
}

fn target(r: &[u8], asked: &[u16], i: usize, k: usize) -> u64 {
    unsafe { wire_target(r.as_ptr(), r.len(), SIZE, asked.as_ptr(), asked.len(), i, k) }
}

fn units(s: &str) -> Vec<u16> {
    s.encode_utf16().collect()
}

fn span(r: &[u8], from: u64, n: u64) -> String {
    let u: Vec<u16> = (0..n as usize).map(|i| u16::from_le_bytes([r[from as usize + 2 * i], r[from as usize + 2 * i + 1]])).collect();
    String::from_utf16_lossy(&u)
}

// A path normalised, or none where it is not good: written from document 01 alone.
fn normal(s: &str) -> Option<String> {
    let body = s.strip_prefix("\\\\").or_else(|| s.strip_prefix('\\'))?;
    let body = body.strip_suffix('\\').unwrap_or(body);
    let good = body.split('\\').all(|c| !c.is_empty() && c != "." && c != ".." && !c.contains(['/', '\0']));
    let path = format!("\\{body}");
    (good && units(&path).len() <= 256).then_some(path)
}

#[derive(Debug, PartialEq)]
struct Said {
    version: u64,
    root: bool,
    servers: bool,
    storage: bool,
    failback: bool,
    count: u64,
    ttl: u64,
    prefix: String,
    targets: Vec<(String, bool)>,
}

fn said(r: &[u8], asked: &[u16]) -> Said {
    let h = |k| head(r, asked, SIZE, k);
    let bits = h(2);
    Said {
        version: h(1),
        root: bits & 1 != 0,
        servers: bits & 2 != 0,
        storage: bits & 4 != 0,
        failback: bits & 8 != 0,
        count: h(3),
        ttl: h(4),
        prefix: span(r, h(5), h(6)),
        targets: (0..h(7) as usize)
            .map(|i| (span(r, target(r, asked, i, 0), target(r, asked, i, 1)), target(r, asked, i, 2) == 1))
            .collect(),
    }
}

// What the decoding says, by document 01's rules on kept targets and flags.
fn decoded(d: &Json) -> Said {
    let e = d.get("entries").list();
    let version = e[0].get("version").number() as u64;
    Said {
        version,
        root: e[0].get("server_type").number() == 1,
        servers: d.get("referral_servers").is_true(),
        storage: d.get("storage_servers").is_true(),
        failback: version == 4 && d.get("target_failback").is_true(),
        count: d.get("number_of_referrals").number() as u64,
        ttl: e[0].get("ttl").number() as u64,
        prefix: normal(e[0].get("dfs_path").text().unwrap_or("")).unwrap_or_default(),
        targets: e
            .iter()
            .take(8)
            .enumerate()
            .map(|(i, x)| (normal(x.get("network_address").text().unwrap_or("")).unwrap_or_default(), i > 0 && version == 4 && x.get("target_set_boundary").is_true()))
            .collect(),
    }
}

struct Counts {
    passed: usize,
    failed: usize,
}

impl Counts {
    fn check(&mut self, ok: bool, what: &str) {
        if ok {
            self.passed += 1;
        } else {
            self.failed += 1;
            println!("failed: {what}");
        }
    }
}

fn hex(s: &str) -> Vec<u8> {
    (0..s.len() / 2).map(|i| u8::from_str_radix(&s[2 * i..2 * i + 2], 16).unwrap()).collect()
}

// One entry or more of one version, `prefix` to `targets`, strings after the entries; the first string is the prefix.
fn made(version: u16, kind: u16, header: u32, prefix: &str, targets: &[(&str, u16)], ttl: u32) -> Vec<u8> {
    let n = targets.len();
    let mut r: Vec<u8> = Vec::new();
    let mut strings: Vec<u8> = Vec::new();
    let text = |s: &str| -> Vec<u8> { units(s).into_iter().chain([0]).flat_map(u16::to_le_bytes).collect() };
    let base = 8 + 34 * n;
    strings.extend(text(prefix));
    r.extend([0, 0]);
    r.extend((n as u16).to_le_bytes());
    r.extend(header.to_le_bytes());
    for (i, (t, flags)) in targets.iter().enumerate() {
        let e = 8 + 34 * i;
        let at = base + strings.len();
        strings.extend(text(t));
        for v in [version, 34, kind, *flags] {
            r.extend(v.to_le_bytes());
        }
        r.extend(ttl.to_le_bytes());
        for v in [(base - e) as u16, (base - e) as u16, (at - e) as u16] {
            r.extend(v.to_le_bytes());
        }
        r.extend([0; 16]);
    }
    r.extend(strings);
    r
}

// Where the last string of a reply ends, from its decoding's offsets.
fn last_end(r: &[u8], starts: &[usize]) -> usize {
    starts
        .iter()
        .map(|&s| {
            let mut i = s;
            while r[i] != 0 || r[i + 1] != 0 {
                i += 2;
            }
            i + 2
        })
        .max()
        .unwrap()
}

fn captures(c: &mut Counts, dir: &str) {
    let listed = std::fs::read_to_string(format!("{dir}/../malformed.txt")).expect("vectors/malformed.txt");
    let listed: Vec<&str> = listed.lines().filter(|l| !l.starts_with('#')).filter_map(|l| l.split_whitespace().next()).collect();
    let mut names: Vec<_> = std::fs::read_dir(dir).expect("vectors/captures").map(|f| f.unwrap().path()).collect();
    names.sort();
    assert!(names.len() == 161, "161 captures, {} found", names.len());
    let (mut read, mut bad, mut nothing, mut two, mut dcs, mut domains, mut skipped, mut failing, mut cuts) = (0, 0, 0, 0, 0, 0, 0, 0, 0);
    let mut met: Vec<String> = Vec::new();
    for p in &names {
        let name = p.file_stem().unwrap().to_str().unwrap();
        let j = json::read(&std::fs::read_to_string(p).unwrap());
        let Some(status) = j.get("status").text() else {
            skipped += 1;
            continue;
        };
        let status = u32::from_str_radix(&status[2..], 16).unwrap();
        if status >> 31 == 1 {
            failing += 1;
            continue;
        }
        let r = hex(j.get("reply_hex").text().unwrap_or(""));
        let d = j.get("decoded").get("reply");
        let asked = j.get("request_name").text().unwrap_or("");
        let entries = d.get("entries").list();
        if entries.is_empty() {
            nothing += 1;
            c.check(head(&r, &units(asked), SIZE, 0) == NOTHING, &format!("{name}: no entry"));
            continue;
        }
        if entries.iter().any(|e| e.get("version").number() == 2) {
            two += 1;
            c.check(head(&r, &units(asked), SIZE, 0) == MALFORMED, &format!("{name}: version 2"));
            continue;
        }
        if asked.is_empty() {
            domains += 1;
            let answer = |r: &[u8]| unsafe { wire_domains(r.as_ptr(), r.len(), SIZE) };
            let got: Vec<String> = (0..entries.len())
                .map(|i| unsafe { span(&r, wire_domain(r.as_ptr(), r.len(), SIZE, i, 0), wire_domain(r.as_ptr(), r.len(), SIZE, i, 1)) })
                .collect();
            let expected: Vec<String> = entries.iter().map(|e| e.get("special_name").text().unwrap()[1..].into()).collect();
            c.check(answer(&r) == SAYS && got == expected, &format!("{name}: domain reply, {got:?}"));
            let starts: Vec<usize> = entries.iter().map(|e| (e.get("at").number() + e.get("offsets").list()[0].number()) as usize).collect();
            for n in 0..last_end(&r, &starts) {
                cuts += 1;
                c.check(answer(&r[..n]) == MALFORMED, &format!("{name} cut to {n}"));
            }
            for (what, at, v) in [("version 4", 8, 4u16), ("NameListReferral clear", 14, 0), ("Size 17", 10, 17), ("offset to a unit 0", 20, 18)] {
                let mut d = r.clone();
                d[at..at + 2].copy_from_slice(&v.to_le_bytes());
                c.check(answer(&d) == MALFORMED, &format!("{name}: {what}"));
            }
            continue;
        }
        if entries[0].get("name_list_referral").is_true() {
            dcs += 1;
            let k = |k| unsafe { wire_dcs(r.as_ptr(), r.len(), SIZE, k) };
            if listed.contains(&name) {
                met.push(name.into());
                c.check(k(0) == MALFORMED, &format!("{name}: listed as malformed"));
                continue;
            }
            let got: Vec<String> = (0..k(1) as usize)
                .map(|i| unsafe { span(&r, wire_dc(r.as_ptr(), r.len(), SIZE, i, 0), wire_dc(r.as_ptr(), r.len(), SIZE, i, 1)) })
                .collect();
            let all: Vec<String> = entries[0].get("expanded_names").list().iter().map(|n| n.text().unwrap().trim_start_matches('\\').into()).collect();
            let expected: Vec<String> = all.into_iter().take(8).collect();
            c.check(k(0) == SAYS && got == expected, &format!("{name}: DC reply, {got:?}"));
            let answer = |r: &[u8]| unsafe { wire_dcs(r.as_ptr(), r.len(), SIZE, 0) };
            let mut end = 8 + entries[0].get("offsets").list()[2].number() as usize;
            for _ in entries[0].get("expanded_names").list() {
                end = last_end(&r, &[end]);
            }
            for n in 0..end {
                cuts += 1;
                c.check(answer(&r[..n]) == MALFORMED, &format!("{name} cut to {n}"));
            }
            for (what, at, v) in [("version 2", 8, 2u16), ("NameListReferral clear", 14, 0), ("Size 17", 10, 17), ("no names", 22, 0), ("more names than there are", 22, 65535)] {
                let mut d = r.clone();
                d[at..at + 2].copy_from_slice(&v.to_le_bytes());
                c.check(answer(&d) == MALFORMED, &format!("{name}: {what}"));
            }
            continue;
        }
        let Some(path) = normal(asked) else {
            println!("no walk asks for the name of {name}");
            skipped += 1;
            continue;
        };
        let asked = units(&path);
        if listed.contains(&name) {
            bad += 1;
            met.push(name.into());
            c.check(head(&r, &asked, SIZE, 0) == MALFORMED, &format!("{name}: listed as malformed"));
            continue;
        }
        read += 1;
        let ok = head(&r, &asked, SIZE, 0) == SAYS && said(&r, &asked) == decoded(d);
        c.check(ok, &format!("{name}: {:?} for {:?}", said(&r, &asked), decoded(d)));
        let starts: Vec<usize> = entries
            .iter()
            .flat_map(|e| {
                let at = e.get("at").number() as usize;
                let o = e.get("offsets").list();
                [at + o[0].number() as usize, at + o[2].number() as usize]
            })
            .collect();
        for n in 0..last_end(&r, &starts) {
            cuts += 1;
            c.check(head(&r[..n], &asked, SIZE, 0) == MALFORMED, &format!("{name} cut to {n}"));
        }
    }
    for l in &listed {
        c.check(met.iter().any(|m| m == l), &format!("{l} is listed and not met"));
    }
    println!("captures: {read} read as decoded, {bad} malformed by a listed rule, {dcs} DC replies, {domains} domain replies, {nothing} without an entry, {two} of version 2, {failing} with a failing status, {skipped} that no walk asks; {cuts} cuts");
}

fn damaged(c: &mut Counts) {
    let asked = units("\\files\\s1");
    let r = made(3, 1, 3, "\\files\\s1", &[("\\nas1\\s1", 0)], 300);
    let answer = |r: &[u8]| head(r, &asked, SIZE, 0);
    c.check(r.len() == 80 && answer(&r) == SAYS, "80 bytes are read");
    c.check(answer(&r[..79]) == MALFORMED, "79 are malformed");
    c.check(head(&r, &asked, 79, 0) == MALFORMED, "longer than the size asked for");
    let put = |at: usize, v: u16| {
        let mut d = r.clone();
        d[at..at + 2].copy_from_slice(&v.to_le_bytes());
        d
    };
    let bad: [(&str, usize, u16); 13] = [
        ("VersionNumber 2", 8, 2),
        ("VersionNumber 5", 8, 5),
        ("Size 33", 10, 33),
        ("Size past the reply", 10, 73),
        ("ServerType 2", 12, 2),
        ("NameListReferral", 14, 2),
        ("DFSPathOffset past the reply", 20, 72),
        ("DFSPathOffset into the middle of a unit", 20, 35),
        ("NetworkAddressOffset past the reply", 24, 100),
        ("NetworkAddressOffset to a unit 0", 24, 52),
        ("two entries where one fits", 2, 2),
        ("a prefix that does not match", 46, b'x' as u16),
        ("a target of one component", 72, b'-' as u16),
    ];
    for (what, at, v) in bad {
        c.check(answer(&put(at, v)) == MALFORMED, what);
    }
    let same: [(&str, usize, u16); 5] = [
        ("PathConsumed", 0, 7),
        ("DFSAlternatePathOffset", 22, 9999),
        ("Size 72", 10, 72),
        ("TargetSetBoundary in version 3", 14, 4),
        ("TargetFailback in version 3", 4, 7),
    ];
    let whole = said(&r, &asked);
    for (what, at, v) in same {
        c.check(answer(&put(at, v)) == SAYS && said(&put(at, v), &asked) == whole, what);
    }
    c.check(answer(&put(2, 0)) == NOTHING, "NumberOfReferrals 0");
    c.check(answer(&put(2, 0)[..8]) == NOTHING && answer(&put(2, 0)[..7]) == MALFORMED, "8 bytes, then 7");
    let two = [("\\nas1\\s1", 4u16), ("\\nas2\\s1", 4)];
    let four = said(&made(4, 0, 7, "\\FILES\\s1", &two, 300), &asked);
    let kept: Vec<bool> = four.targets.iter().map(|t| t.1).collect();
    c.check(four.failback && !four.root && four.prefix == "\\FILES\\s1" && kept == [false, true], "version 4: failback, link, boundaries");
    let mut r2 = made(3, 1, 3, "\\files\\s1", &two, 300);
    c.check(answer(&r2) == SAYS && said(&r2, &asked).targets.iter().all(|t| !t.1), "version 3 has one set");
    for (what, at, v) in [("two versions", 42, 4u16), ("two ServerTypes", 46, 0), ("two DFSPaths", 54, 52)] {
        let old = [r2[at], r2[at + 1]];
        r2[at..at + 2].copy_from_slice(&v.to_le_bytes());
        c.check(answer(&r2) == MALFORMED, what);
        r2[at..at + 2].copy_from_slice(&old);
    }
    let nine: Vec<(&str, u16)> = (0..9).map(|_| ("\\nas1\\s1", 0)).collect();
    let n = said(&made(3, 1, 3, "\\files\\s1", &nine, 300), &asked);
    c.check(n.count == 9 && n.targets.len() == 8, "9 entries, 8 kept");
    let mut ninth = nine.clone();
    ninth[8] = ("\\nas1", 0);
    c.check(answer(&made(3, 1, 3, "\\files\\s1", &ninth, 300)) == MALFORMED, "the 9th is checked");
    let long = |n: usize| format!("\\a\\{}", "b".repeat(n - 3));
    for (n, ok) in [(256, SAYS), (257, MALFORMED)] {
        c.check(answer(&made(3, 1, 3, "\\files\\s1", &[(&long(n), 0)], 300)) == ok, "a target of 256 or 257 units");
    }
    println!("damaged replies: done");
}

// The slowest reply that is read: as many entries as fit beside two strings of 256 units, which every entry names. Each entry's strings are scanned
// to their ends, then for their components, and its prefix is compared with the first.
fn slow(c: &mut Counts) {
    let path = units(&format!("\\a\\{}", "b".repeat(253)));
    let text: Vec<u8> = path.iter().copied().chain([0]).flat_map(u16::to_le_bytes).collect();
    let n = (SIZE as usize - 8 - 2 * text.len()) / 34;
    let base = 8 + 34 * n;
    let mut r = vec![0u8; base];
    r[2..4].copy_from_slice(&(n as u16).to_le_bytes());
    for i in 0..n {
        let e = 8 + 34 * i;
        for (k, v) in [(0, 3u16), (2, 34), (12, (base - e) as u16), (16, (base + text.len() - e) as u16)] {
            r[e + k..e + k + 2].copy_from_slice(&v.to_le_bytes());
        }
    }
    r.extend(&text);
    r.extend(&text);
    let mut best = f64::MAX;
    let mut worst: f64 = 0.0;
    for _ in 0..50 {
        let t = Instant::now();
        let a = head(&r, &path, SIZE, 0);
        let ms = t.elapsed().as_secs_f64() * 1000.0;
        best = best.min(ms);
        worst = worst.max(ms);
        assert!(a == SAYS);
    }
    println!("a reply of {} bytes, {n} entries with two strings of 256 units each: {best:.2} ms at best, {worst:.2} ms at worst of 50", r.len());
    c.check(best < 5.0, "5 ms");
}

fn main() {
    let dir = std::env::args().nth(1).unwrap_or_else(|| format!("{}/../../vectors/captures", env!("CARGO_MANIFEST_DIR")));
    let mut c = Counts { passed: 0, failed: 0 };
    captures(&mut c, &dir);
    damaged(&mut c);
    slow(&mut c);
    println!("layouts: {} passed, {} failed", c.passed, c.failed);
    if c.failed > 0 {
        std::process::exit(1);
    }
}
