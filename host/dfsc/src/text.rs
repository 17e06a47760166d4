//! Text that the library shows.
use crate::refusal::{shown, Refusal};
use std::fmt;
use std::ops::Deref;

/// The units of the longest text.
pub const TEXT_UNITS: usize = 256;

/// A path or a name: at most 256 UTF-16 units. It is used as a `&[u16]`, and printed with what is no UTF-16 replaced.
#[derive(Clone, Copy)]
pub struct Text {
    units: [u16; TEXT_UNITS],
    length: usize,
}

impl Text {
    /// At most the first 256 of these units.
    pub(crate) fn of(text: &[u16]) -> Text {
        let length = text.len().min(TEXT_UNITS);
        let mut units = [0; TEXT_UNITS];
        units[..length].copy_from_slice(&text[..length]);
        Text { units, length }
    }

    /// Its components, parted by backslashes: the server, the share, and so on.
    pub fn components(&self) -> impl Iterator<Item = Text> + '_ {
        self.split(|u| *u == u16::from(b'\\')).filter(|c| !c.is_empty()).map(Text::of)
    }

    /// A component, from 0; the empty text where there are fewer.
    pub fn component(&self, number: usize) -> Text {
        self.components().nth(number).unwrap_or(Text::of(&[]))
    }

    pub(crate) fn shown(show: impl FnOnce(&mut [u16]) -> u32) -> Result<Text, Refusal> {
        let mut units = [0; TEXT_UNITS];
        let length = shown(show(&mut units))?;
        Ok(Text { units, length })
    }
}

impl Deref for Text {
    type Target = [u16];

    fn deref(&self) -> &[u16] {
        &self.units[..self.length]
    }
}

impl PartialEq for Text {
    fn eq(&self, other: &Text) -> bool {
        **self == **other
    }
}

impl Eq for Text {}

impl PartialEq<str> for Text {
    fn eq(&self, other: &str) -> bool {
        self.iter().copied().eq(other.encode_utf16())
    }
}

impl PartialEq<&str> for Text {
    fn eq(&self, other: &&str) -> bool {
        *self == **other
    }
}

impl fmt::Display for Text {
    fn fmt(&self, f: &mut fmt::Formatter) -> fmt::Result {
        f.write_str(&String::from_utf16_lossy(self))
    }
}

impl fmt::Debug for Text {
    fn fmt(&self, f: &mut fmt::Formatter) -> fmt::Result {
        write!(f, "{:?}", String::from_utf16_lossy(self))
    }
}

/// The UTF-16 units of a string.
pub fn units(text: &str) -> Vec<u16> {
    text.encode_utf16().collect()
}
