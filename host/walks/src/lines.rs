//! Lines of vectors/scenarios.txt: a word, then key=value words.

/// The value of a key; empty where it is absent.
pub fn field<'a>(line: &'a str, key: &str) -> &'a str {
    line.split(' ').filter_map(|w| w.split_once('=')).find(|(k, _)| *k == key).map_or("", |(_, v)| v)
}

pub fn has(line: &str, key: &str) -> bool {
    line.split(' ').any(|w| w.split_once('=').is_some_and(|(k, _)| k == key))
}

pub fn number(line: &str, key: &str) -> u32 {
    field(line, key).parse().unwrap_or_else(|_| panic!("{key} of {line}"))
}

pub fn hex_number(line: &str, key: &str) -> u32 {
    u32::from_str_radix(field(line, key), 16).unwrap_or_else(|_| panic!("{key} of {line}"))
}

/// Text spelled as in the listing: "~" and four hex digits for a unit that does not stand as it is.
pub fn units(s: &str) -> Vec<u16> {
    let b = s.as_bytes();
    let mut out = vec![];
    let mut i = 0;
    while i < b.len() {
        if b[i] == b'~' {
            out.push(u16::from_str_radix(&s[i + 1..i + 5], 16).unwrap());
            i += 5;
        } else {
            out.push(b[i] as u16);
            i += 1;
        }
    }
    out
}

pub fn bytes(s: &str) -> Vec<u8> {
    (0..s.len() / 2).map(|i| u8::from_str_radix(&s[2 * i..2 * i + 2], 16).unwrap()).collect()
}

/// One call: its line, what it gives, and the caches after it where they changed. Of `set`, the caches that it puts.
pub struct Call<'a> {
    pub line: &'a str,
    pub gives: &'a str,
    pub after: Vec<&'a str>,
}

pub struct Scenario<'a> {
    pub name: &'a str,
    pub caches: Vec<&'a str>,
    pub calls: Vec<Call<'a>>,
}

fn of_caches(l: &str) -> bool {
    ["referrals", "entry", "target", "domains", "domain", "dc"].contains(&l.split(' ').next().unwrap())
}

pub fn scenarios(text: &str) -> Vec<Scenario<'_>> {
    let mut all: Vec<Scenario> = vec![];
    for l in text.lines().filter(|l| !l.is_empty()) {
        if let Some(name) = l.strip_prefix("scenario ") {
            all.push(Scenario { name, caches: vec![], calls: vec![] });
            continue;
        }
        let s = all.last_mut().expect("a scenario");
        if let Some(g) = l.strip_prefix("> ") {
            s.calls.last_mut().expect("a call").gives = g;
        } else if let Some(a) = l.strip_prefix("= ") {
            s.calls.last_mut().expect("a call").after.push(a);
        } else if of_caches(l) {
            match s.calls.last_mut() {
                Some(c) => c.after.push(l),
                None => s.caches.push(l),
            }
        } else {
            s.calls.push(Call { line: l, gives: "", after: vec![] });
        }
    }
    all
}
