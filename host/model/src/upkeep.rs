//! The calls of a host that tends its caches, in a scene: entries expired, a hint moved on.
use crate::random::Random;
use crate::rules::names::{ascii, Text};
use crate::rules::upkeep::{all_expired, dc_moved, one_expired};
use crate::{calls, lent, same, same_places, scenes, Counts, Host, Outcome};
use lent::PLACE;

/// The calls, and the numbers that a long run has to have met.
const NUMBERS: [(&str, &[u32]); 3] = [("expire all", &[0, 4]), ("expire", &[0, 1, 2, 4, 27]), ("next DC", &[0, 4, 27])];

pub fn wanted() -> impl Iterator<Item = String> {
    NUMBERS.iter().flat_map(|(call, numbers)| numbers.iter().map(move |n| told(call, *n)))
}

fn told(call: &str, number: u32) -> String {
    format!("{call}: {number:2}")
}

// What a call gave back and left of a cache, beside what it should; whether it was taken.
fn left(call: &str, number: u32, model: Result<Vec<u16>, u32>, after: &[u16], before: &[u16], counts: &mut Counts) -> Result<bool, String> {
    same(&format!("the number of {call}"), &[number], &[*model.as_ref().err().unwrap_or(&0)])?;
    counts.see(told(call, number));
    same_places(&format!("the cache after {call}"), after, model.as_deref().unwrap_or(before))?;
    Ok(number == 0)
}

impl Host {
    /// One of the three, on a cache in order or not. Now and then the scene goes on with what it leaves.
    pub fn tend(&mut self, r: &mut Random, counts: &mut Counts) -> Outcome {
        counts.calls += 1;
        let (mut refs, mut doms, damaged) = (self.refs.clone(), self.doms.clone(), r.in_hundred(15));
        if damaged {
            scenes::poked(r, &mut refs, PLACE);
            scenes::poked(r, &mut doms, PLACE);
        }
        let (refs_before, doms_before) = (refs.clone(), doms.clone());
        let taken = match r.below(4) {
            0 => {
                let model = all_expired(lent::referrals(&refs).as_ref()).map(|c| lent::referral_units(&c));
                let number = calls::expire_all(&mut refs);
                left("expire all", number, model, &refs, &refs_before, counts)?
            }
            1 => {
                let path = scenes::path(r, self.caches.as_ref());
                let model = one_expired(lent::referrals(&refs).as_ref(), &path).map(|c| lent::referral_units(&c));
                let number = calls::expire(&mut refs, &path);
                left("expire", number, model, &refs, &refs_before, counts)?
            }
            _ => {
                let name = self.name(r);
                let model = dc_moved(lent::domains(&doms).as_ref(), &name).map(|c| lent::domain_units(&c));
                let number = calls::next_dc(&mut doms, &name);
                left("next DC", number, model, &doms, &doms_before, counts)?
            }
        };
        if taken && !damaged && r.in_hundred(25) {
            (self.refs, self.doms) = (refs, doms);
            self.caches = lent::caches(&self.refs, &self.doms);
        }
        Ok(())
    }

    // The name of a domain that is known, one unit more or less, or another.
    fn name(&self, r: &mut Random) -> Text {
        let names: Vec<Text> = self.caches.iter().flat_map(|c| c.domains.iter().flatten().map(|d| d.name.clone())).collect();
        if names.is_empty() || r.in_hundred(10) {
            return ascii(r.one_of(&["", "corp", "\\corp", "dc1"]));
        }
        let name = r.one_of(&names);
        let mut name = scenes::respelled(r, &name);
        match r.below(8) {
            0 => name.push(b'x' as u16),
            1 => name.truncate(name.len() - 1),
            _ => {}
        }
        name
    }
}
