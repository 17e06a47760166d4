//! The calls of the listing in a scene: the referral cache as it is, listed, and texts read.
use crate::random::Random;
use crate::rules::listing::{list, referrals_after};
use crate::{calls, lent, same, same_places, texts, Counts, Host, Outcome, FILL};
use lent::PLACE;

/// DFSC_LISTING_UNITS of include/dfsc.h: every listing fits.
const LISTING_UNITS: usize = 373_248;

/// Buffers of a listing, and the outcomes that a long run has to have met.
const BUFFERS: [(&str, &[u32]); 4] = [("ample", &[0, 4]), ("exact", &[0]), ("one short", &[10]), ("empty", &[0, 4, 10])];
const BACK: &str = "a cache that came back the same from its listing";
const LONG: &str = "a listing of more than 65,535 units";

pub fn wanted() -> impl Iterator<Item = String> {
    let lists = BUFFERS.iter().flat_map(|(buffer, outcomes)| outcomes.iter().map(move |o| listed(buffer, *o)));
    lists.chain(texts::wanted()).chain([BACK.to_string(), LONG.to_string()])
}

fn listed(buffer: &str, outcome: u32) -> String {
    format!("listing, buffer {buffer}: {outcome}")
}

// As many units as the text has, or about so many.
fn room(r: &mut Random, length: usize) -> (&'static str, usize) {
    match r.below(200) {
        0..=39 if length > 0 => ("exact", length),
        40..=79 if length > 0 => ("one short", length - 1),
        80..=99 => ("empty", 0),
        100 => ("ample", LISTING_UNITS),
        _ => ("ample", length + 1 + r.below(300)),
    }
}

impl Host {
    /// The referral cache listed, in order or not.
    pub fn list(&self, r: &mut Random, counts: &mut Counts) -> Outcome {
        counts.calls += 1;
        let cache = lent::referrals(&self.refs);
        let by_model = |room: usize| list(cache.as_deref(), room);
        let (buffer, room) = room(r, by_model(LISTING_UNITS).map_or(0, |t| t.len()));
        let should = by_model(room);
        counts.see(listed(buffer, should.as_ref().map_or_else(|e| *e, |_| 0)));
        let mut out = vec![FILL; room];
        let number = calls::list(&self.refs, &mut out);
        same("the number of a listing", &[number], &[should.as_ref().map_or_else(|e| (*e as u64) << 32, |t| t.len() as u64)])?;
        let mut left = should.unwrap_or_default();
        left.resize(room, FILL);
        same("the listing", &out, &left)
    }

    /// A text read into memory of any content, which then is the referral cache now and then.
    pub fn read_listing(&mut self, r: &mut Random, now: u32, counts: &mut Counts) -> Outcome {
        counts.calls += 1;
        let cache = &self.caches.as_ref().unwrap().referrals;
        let made = texts::made(r, cache, now);
        let before = memory(r, made.entries, cache.len());
        let places = lent::place_count(&before);
        let model = referrals_after(&made.text, places);
        let mut refs = before.clone();
        let number = calls::read(&made.text, &mut refs);
        same(&format!("the number of a text, {},", made.what), &[number], &[*model.as_ref().err().unwrap_or(&0)])?;
        let before_9 = if number == 8 && made.entries > places { " before 9" } else { "" };
        counts.see(texts::seen(made.what, &format!("{number}{before_9}")));
        let Ok(entries) = model else {
            return same("the cache of a refused call", &refs, &before);
        };
        same_places("the cache read", &refs, &lent::referral_units(&entries))?;
        listed_again(&refs, &made.text)?;
        if refs == self.refs && !made.text.is_empty() {
            counts.see(BACK.to_string());
        }
        if made.text.len() > 65_535 {
            counts.see(LONG.to_string());
        }
        if r.in_hundred(15) {
            self.refs = refs;
            self.caches = lent::caches(&self.refs, &self.doms);
        }
        Ok(())
    }
}

// To read so many entries into, beside a cache of so many places: a place more or less, or no cache.
fn memory(r: &mut Random, entries: usize, held: usize) -> Vec<u16> {
    let places = r.one_of(&[entries, entries, entries + 1, entries - 1, 1, 32, held]).clamp(1, 32);
    let length = places * PLACE;
    let no_cache = r.one_of(&[0, 1, length - 1, length + 1, 33 * PLACE]);
    vec![r.one_of(&[0, 1, FILL]); if r.in_hundred(6) { no_cache } else { length }]
}

// What was read is listed as the same text.
fn listed_again(refs: &[u16], text: &[u16]) -> Outcome {
    let mut out = vec![FILL; text.len()];
    same("the number of a listing of what was read", &[calls::list(refs, &mut out)], &[text.len() as u64])?;
    same("the listing of what was read", &out, text)
}
