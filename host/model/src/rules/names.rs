//! Names and paths.

pub type Text = Vec<u16>;

pub const BACKSLASH: u16 = b'\\' as u16;
const MOST_OF_A_PATH: usize = 256;
const MOST_OF_A_NAME: usize = 255;

#[derive(Debug, PartialEq)]
pub enum BadPath {
    Bad,
    Long,
}

/// A to Z are equal to a to z, all other units exactly.
pub fn equal(a: &[u16], b: &[u16]) -> bool {
    let folded = |u: &u16| if (0x41..=0x5A).contains(u) { u + 32 } else { *u };
    a.len() == b.len() && a.iter().map(folded).eq(b.iter().map(folded))
}

pub fn ascii(s: &str) -> Text {
    s.encode_utf16().collect()
}

fn good_component(c: &[u16]) -> bool {
    let bad = |u: &u16| *u == 0 || *u == b'/' as u16 || *u == BACKSLASH;
    !c.is_empty() && !c.iter().any(bad) && c != ascii(".") && c != ascii("..")
}

/// One good component of at most 255 units.
pub fn good_name(name: &[u16]) -> bool {
    good_component(name) && name.len() <= MOST_OF_A_NAME
}

/// One or two leading backslashes, components parted by single ones; a trailing one is dropped.
pub fn normalised(text: &[u16]) -> Result<Text, BadPath> {
    let after_one = text.strip_prefix(&[BACKSLASH]).ok_or(BadPath::Bad)?;
    let body = after_one.strip_prefix(&[BACKSLASH]).unwrap_or(after_one);
    let body = body.strip_suffix(&[BACKSLASH]).unwrap_or(body);
    if !body.split(|u| *u == BACKSLASH).all(good_component) {
        return Err(BadPath::Bad);
    }
    let path = joined(body.split(|u| *u == BACKSLASH));
    if path.len() > MOST_OF_A_PATH {
        return Err(BadPath::Long);
    }
    Ok(path)
}

/// A path that is normalised already, with at least so many components.
pub fn good_path(path: &[u16], least: usize) -> bool {
    normalised(path).as_deref() == Ok(path) && components(path).len() >= least
}

fn joined<'a>(components: impl Iterator<Item = &'a [u16]>) -> Text {
    components.flat_map(|c| std::iter::once(BACKSLASH).chain(c.iter().copied())).collect()
}

/// Of a normalised path.
pub fn components(path: &[u16]) -> Vec<&[u16]> {
    path[1..].split(|u| *u == BACKSLASH).collect()
}

/// The path of the first n components.
pub fn first(path: &[u16], n: usize) -> Text {
    joined(components(path).into_iter().take(n))
}

/// A prefix matches by whole components.
pub fn matches(prefix: &[u16], path: &[u16]) -> bool {
    let (p, q) = (components(prefix), components(path));
    p.len() <= q.len() && p.iter().zip(&q).all(|(a, b)| equal(a, b))
}

/// The path with the target in place of the prefix that matches; None where it has over 256 units.
pub fn replaced(path: &[u16], prefix: &[u16], target: &[u16]) -> Option<Text> {
    let rest = components(path).split_off(components(prefix).len());
    let mut new = target.to_vec();
    new.extend(joined(rest.into_iter()));
    (new.len() <= MOST_OF_A_PATH).then_some(new)
}
