//! Texts to read: listings, and what is not quite one.
// all changes of one kind have one type, so that they stand in a table
#![allow(clippy::ptr_arg)]
use crate::random::Random;
use crate::rules::caches::{Referral, Target};
use crate::rules::listing::{ended, lines, LINE_FEED};
use crate::rules::names::{ascii, first, Text};
use crate::scenes;

/// What is done to a listing: to its entries, its lines or its units. There is an entry at least.
enum Change {
    Entries(fn(&mut Random, &mut Vec<Referral>)),
    Lines(fn(&mut Random, &mut Vec<Text>)),
    Units(fn(&mut Random, &mut Text)),
}
use Change::{Entries, Lines, Units};

/// Each change, and the outcomes of reading such a text that a long run has to have met.
const CHANGES: [(&str, Change, &[&str]); 31] = [
    ("as listed", Entries(|_, _| {}), &["0", "4", "9"]),
    ("entries exchanged", Entries(exchange), &["0"]),
    ("equal prefixes", Entries(equal_prefixes), &["8", "8 before 9"]),
    ("a hint near the number of targets", Entries(hint), &["0", "8"]),
    ("no target", Entries(|r, all| some(r, all).targets.clear()), &["8"]),
    ("8 targets or 9", Entries(eight_or_nine), &["0", "8"]),
    ("a path of about 256 units", Entries(long_path), &["0", "8"]),
    ("a path of one component", Entries(one_component), &["8"]),
    ("a bad path", Entries(bad_path), &["8"]),
    ("about 32 entries", Entries(many), &["0", "9"]),
    ("lines exchanged", Lines(exchange), &["0", "8"]),
    ("a line doubled", Lines(double), &["0", "8"]),
    ("a line left out", Lines(leave_out), &["0", "8"]),
    ("an empty line", Lines(|r, all| all.insert(r.below(all.len() + 1), vec![])), &["8"]),
    ("a leading zero", Lines(leading_zero), &["8"]),
    ("another number", Lines(number), &["0", "8"]),
    ("another kind or flag", Lines(kind_or_flag), &["0", "8"]),
    ("another key", Lines(key), &["8"]),
    ("a blank at an end of a line", Lines(blank), &["8"]),
    ("an escape", Lines(escape), &["0", "8"]),
    ("an escape with lower-case hex", Lines(lower_hex), &["8"]),
    ("an escape of a unit that stands", Lines(needless_escape), &["8"]),
    ("an escape cut short", Lines(short_escape), &["8"]),
    ("a unit that has to be escaped", Lines(bare), &["8"]),
    ("a unit changed", Units(change), &["0", "8"]),
    ("a unit left out", Units(leave_out), &["0", "8"]),
    ("a unit inserted", Units(insert), &["0", "8"]),
    ("a unit doubled", Units(double), &["0", "8"]),
    ("an end cut off", Units(cut), &["0", "8"]),
    ("the last line not ended", Units(|_, text| text.truncate(text.len() - 1)), &["4", "8", "8 before 9"]),
    ("nothing", Units(|_, text| text.clear()), &["0", "4"]),
];

/// What reading texts has to have come to.
pub fn wanted() -> impl Iterator<Item = String> {
    CHANGES.iter().flat_map(|(what, _, outcomes)| outcomes.iter().map(move |o| seen(what, o)))
}

pub fn seen(what: &str, outcome: &str) -> String {
    format!("text, {what}: {outcome}")
}

pub struct Made {
    pub what: &'static str,
    pub text: Text,
    /// The entries of the listing that was changed.
    pub entries: usize,
}

/// The listing of the cache's entries, or of one made up where it has none: as it is or changed.
pub fn made(r: &mut Random, cache: &[Option<Referral>], now: u32) -> Made {
    let mut entries: Vec<Referral> = cache.iter().flatten().cloned().collect();
    if entries.is_empty() {
        entries.push(scenes::referral(r, now));
    }
    let (what, change, _) = &CHANGES[if r.in_hundred(20) { 0 } else { r.below(CHANGES.len()) }];
    if let Entries(change) = change {
        change(r, &mut entries);
    }
    let mut all: Vec<Text> = entries.iter().flat_map(lines).collect();
    if let Lines(change) = change {
        change(r, &mut all);
    }
    let mut text = ended(&all);
    if let Units(change) = change {
        change(r, &mut text);
    }
    Made { what, text, entries: entries.len() }
}

fn some<'a, T>(r: &mut Random, all: &'a mut [T]) -> &'a mut T {
    &mut all[r.below(all.len())]
}

// Of an entry.
fn some_path<'a>(r: &mut Random, all: &'a mut [Referral]) -> &'a mut Text {
    let e = some(r, all);
    if r.in_hundred(50) { &mut e.prefix } else { &mut some(r, &mut e.targets).path }
}

fn exchange<T>(r: &mut Random, all: &mut Vec<T>) {
    let (i, j) = (r.below(all.len()), r.below(all.len()));
    all.swap(i, j);
}

fn double<T: Clone>(r: &mut Random, all: &mut Vec<T>) {
    let i = r.below(all.len());
    all.insert(i, all[i].clone());
}

fn leave_out<T>(r: &mut Random, all: &mut Vec<T>) {
    all.remove(r.below(all.len()));
}

fn equal_prefixes(r: &mut Random, all: &mut Vec<Referral>) {
    let mut again = r.one_of(all);
    again.prefix = scenes::respelled(r, &again.prefix);
    all.insert(r.below(all.len() + 1), again);
}

// Also one whose low half is a hint that would do.
fn hint(r: &mut Random, all: &mut Vec<Referral>) {
    let e = some(r, all);
    let count = e.targets.len();
    e.hint = r.one_of(&[count - 1, count, count + 1, 65536, 1 << 32]);
}

fn eight_or_nine(r: &mut Random, all: &mut Vec<Referral>) {
    let e = some(r, all);
    let again = e.targets[0].clone();
    e.targets.resize(8 + r.below(2), again);
}

fn long_path(r: &mut Random, all: &mut Vec<Referral>) {
    let unit = r.one_of(&[b'z' as u16, 0xC9]);
    some_path(r, all).resize(r.one_of(&[255, 256, 257, 258]), unit);
}

fn one_component(r: &mut Random, all: &mut Vec<Referral>) {
    let path = some_path(r, all);
    *path = first(path, 1);
}

fn bad_path(r: &mut Random, all: &mut Vec<Referral>) {
    let bad = r.one_of(&["", "\\", "\\a\\", "\\a\\..", "\\.\\b", "\\\\a\\b", "\\a\\b\\", "\\a\\\\b", "a\\b", "\\a\\/", "\\a\\\0", "\\\u{c9}"]);
    *some_path(r, all) = ascii(bad);
}

// Now and then all texts are as long as they get.
fn many(r: &mut Random, all: &mut Vec<Referral>) {
    let base = all[0].clone();
    let longest = r.in_hundred(20);
    let path = |i: usize| {
        let mut path = ascii(&format!("\\m\\{i}"));
        path.resize(if longest { 256 } else { path.len() }, 0xFFFF);
        path
    };
    let targets: Vec<Target> = (0..if longest { 8 } else { 1 }).map(|i| Target { path: path(i), boundary: false }).collect();
    *all = (0..r.one_of(&[31, 32, 33, 40])).map(|i| Referral { prefix: path(i), targets: targets.clone(), hint: 0, ..base.clone() }).collect();
}

// The end of a line's key, "=" with it.
fn key_end(line: &[u16]) -> usize {
    1 + line.iter().position(|u| *u == b'=' as u16).unwrap()
}

// A line with one of these keys.
fn line_of<'a>(r: &mut Random, all: &'a mut [Text], keys: &[&str]) -> &'a mut Text {
    let key = ascii(r.one_of(keys));
    let mut found: Vec<&mut Text> = all.iter_mut().filter(|l| l.starts_with(&key)).collect();
    found.swap_remove(r.below(found.len()))
}

fn set_value(line: &mut Text, value: &str) {
    line.truncate(key_end(line));
    line.extend(ascii(value));
}

fn leading_zero(r: &mut Random, all: &mut Vec<Text>) {
    let line = line_of(r, all, &["interlink", "failback", "ttl", "taken", "hint"]);
    line.insert(key_end(line), b'0' as u16);
}

// The greatest, those past it that are small once they wrap, and what is no number.
fn number(r: &mut Random, all: &mut Vec<Text>) {
    let value = r.one_of(&["4294967295", "4294967295", "0", "", "4294967296", "4294967299", "10000000000", "18446744073709551616", "18446744073709551619",
        "+1", "-0", "1x", "1.0", "\u{661}"]);
    set_value(line_of(r, all, &["ttl", "taken", "hint"]), value);
}

fn kind_or_flag(r: &mut Random, all: &mut Vec<Text>) {
    let (keys, value) = if r.in_hundred(50) {
        (&["kind"][..], r.one_of(&["root", "link", "Root", "LINK", "roo", "linkx", "", "1"]))
    } else {
        (&["interlink", "failback"][..], r.one_of(&["0", "1", "2", "11", "65536", "-1", "", "x"]))
    };
    set_value(line_of(r, all, keys), value);
}

fn key(r: &mut Random, all: &mut Vec<Text>) {
    let line = some(r, all);
    let end = key_end(line);
    match r.below(4) {
        0 => line[end - 1] = b':' as u16,
        1 => line[0] ^= 32,
        2 => line.insert(end - 1, b'x' as u16),
        _ => {
            line.remove(r.below(end));
        }
    }
}

fn blank(r: &mut Random, all: &mut Vec<Text>) {
    let line = some(r, all);
    let at = r.one_of(&[0, key_end(line), line.len()]);
    line.insert(at, r.one_of(&[0x20, 0x0D, 0x09]));
}

// Into a path, after a backslash or at its end: never inside an escape.
fn put_in(r: &mut Random, all: &mut [Text], piece: &[u16]) {
    let line = line_of(r, all, &["prefix", "target"]);
    let mut spots: Vec<usize> = (1..=line.len()).filter(|i| line[i - 1] == b'\\' as u16).collect();
    spots.push(line.len());
    let at = r.one_of(&spots);
    line.splice(at..at, piece.iter().copied());
}

fn escape(r: &mut Random, all: &mut Vec<Text>) {
    let piece = r.one_of(&["~0001", "~000A", "~0020", "~007E", "~007F", "~00C9", "~0141", "~D800", "~FFFF", "~0000"]);
    put_in(r, all, &ascii(piece));
}

fn lower_hex(r: &mut Random, all: &mut Vec<Text>) {
    let piece = r.one_of(&["~00c9", "~000a", "~fFFF", "~007e", "~Ab01"]);
    put_in(r, all, &ascii(piece));
}

fn needless_escape(r: &mut Random, all: &mut Vec<Text>) {
    let any = 0x21 + r.below(0x5D);
    let unit = r.one_of(&[0x21, 0x2E, 0x2F, 0x5C, 0x7D, any, any]);
    put_in(r, all, &ascii(&format!("~{unit:04X}")));
}

// What follows may complete it.
fn short_escape(r: &mut Random, all: &mut Vec<Text>) {
    let piece = r.one_of(&["~", "~", "~0", "~00C", "~~", "~G000", "~000G", "~:000", "~@000", "~/000"]);
    put_in(r, all, &ascii(piece));
}

// Some have the low byte of a letter.
fn bare(r: &mut Random, all: &mut Vec<Text>) {
    let unit = r.one_of(&[0, 1, 0x20, 0x7F, 0x80, 0xC9, 0x141, 0x4E00, 0xD800, 0xFF41, 0xFFFF]);
    put_in(r, all, &[unit]);
}

fn any_unit(r: &mut Random, was: u16) -> u16 {
    let any = r.next() as u16;
    r.one_of(&[LINE_FEED, b'0' as u16, b'A' as u16, b'a' as u16, b'\\' as u16, b'~' as u16, b'=' as u16, 0x4E00, was ^ 32, was ^ 0x100,
        was.wrapping_add(1), was.wrapping_sub(1), any])
}

// Anywhere, or after a line.
fn cut(r: &mut Random, text: &mut Text) {
    text.truncate(r.below(text.len()));
    if r.in_hundred(50) {
        text.truncate(text.iter().rposition(|u| *u == LINE_FEED).map_or(0, |i| i + 1));
    }
}

fn change(r: &mut Random, text: &mut Text) {
    let unit = some(r, text);
    *unit = any_unit(r, *unit);
}

fn insert(r: &mut Random, text: &mut Text) {
    let at = r.below(text.len());
    text.insert(at, any_unit(r, text[at]));
}
