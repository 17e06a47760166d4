//! What is timed, and what is compared before.
use dfsc::PLACE_UNITS as PLACE;

#[derive(Clone, Copy)]
pub struct Shape {
    pub units: usize,
    pub targets: usize,
}

/// A path of two components and so many units; two of them differ in the last two units.
pub fn path(units: usize, tag: usize) -> Vec<u16> {
    let mut p = vec![97; units];
    p[0] = 92;
    p[units / 2] = 92;
    p[units - 2] = 97 + (tag / 16) as u16;
    p[units - 1] = 97 + (tag % 16) as u16;
    p
}

fn put(place: &mut [u16], j: usize, text: &[u16]) {
    place[j] = text.len() as u16;
    place[32 + 256 * j..][..text.len()].copy_from_slice(text);
}

/// A referral cache of root entries, taken at 0 and good for 300 seconds.
pub fn referrals(places: usize, shape: Shape) -> Vec<u16> {
    let mut cache = vec![0; places * PLACE];
    for (i, place) in cache.chunks_mut(PLACE).enumerate() {
        put(place, 0, &path(shape.units, i));
        for j in 1..=shape.targets {
            put(place, j, &path(shape.units, 100 + j));
        }
        place[9] = shape.targets as u16;
        place[19] = 1;
        place[22] = 300;
    }
    cache
}

/// How a path lies to the entries of a cache.
#[derive(Clone, Copy)]
pub enum Lies {
    Below,
    Equal,
    Beside,
}

const ROOTS: [&str; 3] = [r"\corp.example\dfs", r"\corp.example\public", r"\nas01\data"];
const NAMES: [&str; 12] = ["docs", "Tools", "Projects", "home", "Finance", "hr", "archive-2019", "archive-2020", "x", "Reports", "quarterly", "site b"];

struct Random(u64);

impl Random {
    fn below(&mut self, n: usize) -> usize {
        self.0 = self.0.wrapping_mul(6364136223846793005).wrapping_add(1442695040888963407);
        (self.0 >> 33) as usize % n
    }

    /// Components to go down by.
    fn down(&mut self, count: usize) -> String {
        (0..count).map(|_| format!(r"\{}{}", NAMES[self.below(NAMES.len())], ["", "07", "12", "2"][self.below(4)])).collect()
    }
}

/// A cache of 32 entries of three namespaces, of various lengths and some below others, and 512 paths, one of so many in capitals: one draw of many.
pub fn mixed(draw: u64, lies: Lies, capitals: usize) -> (Vec<u16>, Vec<Vec<u16>>) {
    let mut r = Random(draw);
    let mut prefixes: Vec<String> = vec![];
    while prefixes.len() < 32 {
        let count = r.below(4);
        let prefix = ROOTS[r.below(ROOTS.len())].to_string() + &r.down(count);
        if !prefixes.contains(&prefix) {
            prefixes.push(prefix);
        }
    }
    let mut cache = vec![0; prefixes.len() * PLACE];
    for (place, prefix) in cache.chunks_mut(PLACE).zip(&prefixes) {
        put(place, 0, &units(prefix));
        put(place, 1, &units(prefix));
        (place[9], place[22]) = (1, 300);
    }
    let paths = (0..512).map(|_| {
        let (count, prefix) = (r.below(4), &prefixes[r.below(prefixes.len())]);
        let path = match lies {
            Lies::Below => prefix.clone() + &r.down(1 + count),
            Lies::Equal => prefix.clone(),
            Lies::Beside => prefix.replacen(r"\", r"\old", 1) + &r.down(count),
        };
        units(&if r.below(capitals) == 0 { path.to_uppercase() } else { path })
    });
    let paths = paths.collect();
    (cache, paths)
}

/// A domain cache of full places; the first domain is "corp", of the second no DC is known.
pub fn domains(places: usize) -> Vec<u16> {
    let mut cache = vec![0; places * PLACE];
    for (i, place) in cache.chunks_mut(PLACE).enumerate() {
        let name = if i == 0 { "corp".into() } else { format!("domain{i}.example") };
        put(place, 0, &units(&name));
        for j in 1..=if i == 1 { 0 } else { 8 } {
            put(place, j, &units(&format!("dc{j}.domain{i}.example")));
            place[9] = j as u16;
        }
        place[10] = if i == 1 { 0 } else { 3 };
    }
    cache
}

/// A domain cache of full places whose names, and their DCs, have 255 units and differ in the last two.
pub fn long_domains(places: usize) -> Vec<u16> {
    let mut cache = vec![0; places * PLACE];
    for (i, place) in cache.chunks_mut(PLACE).enumerate() {
        put(place, 0, &long_name(i));
        for j in 1..=8 {
            put(place, j, &long_name(100 + j));
        }
        place[9] = 8;
    }
    cache
}

/// A name of 255 units; two of them differ in the last two.
fn long_name(tag: usize) -> Vec<u16> {
    let mut name = vec![97; 255];
    name[253] = 97 + (tag / 16) as u16;
    name[254] = 97 + (tag % 16) as u16;
    name
}

/// A domain reply that takes long: 32 different names of 255 units, which differ in the last two, or in the first two, and then the last of them in as many
/// entries as 57,344 bytes hold.
pub fn slow_domains(at_their_ends: bool) -> Vec<u8> {
    let name = |i| {
        let mut name = long_name(i);
        if !at_their_ends {
            name.reverse();
        }
        name
    };
    let strings: Vec<u8> = (0..32).flat_map(|i| [vec![92], name(i), vec![0]].concat()).flat_map(u16::to_le_bytes).collect();
    let n = (57_344 - 8 - strings.len()) / 18;
    let mut r = [[0, 0], (n as u16).to_le_bytes(), [0, 0], [0, 0]].concat();
    for i in 0..n {
        let offset = 8 + 18 * n + 514 * i.min(31) - (8 + 18 * i);
        for v in [3, 18, 0, 2, 300, 0, offset as u16, 0, 0] {
            r.extend(v.to_le_bytes());
        }
    }
    r.extend(strings);
    r
}

fn units(s: &str) -> Vec<u16> {
    s.encode_utf16().collect()
}

/// Paths that a start is given.
pub const PATHS: [&str; 24] = [
    r"\a\b", r"\\A\B\c", r"\a\b\c\d", r"\a\bc", r"\corp\dfs", r"\corp\dfs\link\x", r"\CORP\SysVol\x", r"\corp\netlogon", r"\domain1.example\x\y", r"\nas\s1", r"\abc", r"\",
    "", r"a\b", r"\a\..", r"\a\.", r"\a\...", r"\a\b\", r"\a\b\\", r"\a//b", r"\\\a\b", r"\\", r"\corp\dfs\long", r"\a\b\s",
];

/// A referral cache of four entries whose kinds, ages, flags and targets are told by the bits of a number.
pub fn varied(bits: usize) -> Vec<u16> {
    let bit = |k: usize| (bits >> k & 1) as u16;
    let mut cache = vec![0; 5 * PLACE];
    let long = format!(r"\t\{}", "y".repeat(253));
    let targets: [[&str; 2]; 4] = [[r"\nas1\s1", r"\a\b"], [r"\corp\dfs\link", r"\corp\SYSVOL"], [r"\nas2\s2", r"\a\b\c"], [r"\nas3\s3", &long]];
    for (i, prefix) in [r"\a\b", r"\A\b\c", r"\corp\dfs", r"\corp\dfs\link"].iter().enumerate() {
        let place = &mut cache[(i + bit(7) as usize) * PLACE..][..PLACE];
        put(place, 0, &units(prefix));
        put(place, 1, &units(targets[i][0]));
        put(place, 2, &units(targets[i][1]));
        place[9] = 2;
        place[10] = bit(i);
        place[19] = bit((i + 3) % 7);
        place[20] = bit((i + 4) % 7);
        place[22] = if bit((i + 5) % 7) == 1 { 300 } else { 150 };
        place[24] = 40 * bit((i + 2) % 7);
    }
    if bit(6) == 1 {
        cache[4 * PLACE..].fill(0);
    }
    cache
}

/// A reply of n entries, each with its own strings, as Samba sends it: the path and the alternate path, then a target of 30 units.
pub fn reply(version: u16, prefix: &[u16], n: usize, flags: u32) -> Vec<u8> {
    let string = |text: &[u16]| text.iter().copied().chain([0]).flat_map(u16::to_le_bytes).collect::<Vec<u8>>();
    let mut r = [[0, 0], (n as u16).to_le_bytes(), (flags as u16).to_le_bytes(), [0, 0]].concat();
    let (named, base) = (string(prefix), 8 + 34 * n);
    let mut strings: Vec<u8> = vec![];
    for i in 0..n {
        let (at, to) = (8 + 34 * i, base + strings.len());
        let offsets = [0, named.len(), 2 * named.len()].map(|k| (to + k - at) as u16);
        for v in [version, 34, 0, if i % 3 == 2 { 4 } else { 0 }, 300, 0, offsets[0], offsets[1], offsets[2]] {
            r.extend(v.to_le_bytes());
        }
        r.extend([0; 16]);
        strings.extend([&named[..], &named[..], &string(&path(30, i))[..]].concat());
    }
    r.extend(strings);
    r
}

/// The reply with a byte or a field of it changed, or cut, as a number tells.
pub fn damaged(r: &[u8], k: usize) -> Vec<u8> {
    let mut d = r.to_vec();
    let at = k * 7919 % d.len();
    match k % 7 {
        6 => d[2..4].copy_from_slice(&(k as u16 / 7 % 3).to_le_bytes()),
        0 => d[at] ^= 1 << (k / 6 % 8),
        1 => d.truncate(at),
        2 => d[8 + at % 34] ^= 1 << (k / 6 % 8),
        3 => d[at] = [0, 46, 47, 92][k / 6 % 4],
        4 => d.truncate(d.len() - k / 6 % 80),
        _ => {
            // a unit of a string
            let even = at & !1;
            d[even..even + 2].copy_from_slice(&[[0, 0], [46, 0], [47, 0], [92, 0]][k / 6 % 4]);
        }
    }
    d
}
