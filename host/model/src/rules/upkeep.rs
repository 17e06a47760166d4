//! What a host does to its caches beside walks. A cache that is not in order is None; a refusal is its number, and then nothing changes.
use super::caches::{Domain, Referral};
use super::names::{equal, normalised, BadPath};

const BAD_PATH: u32 = 1;
const LONG_PATH: u32 = 2;
const NOT_IN_ORDER: u32 = 4;
const NO_ENTRY: u32 = 27;

type Referrals = Vec<Option<Referral>>;
type Domains = Vec<Option<Domain>>;

/// Every entry has a TTL of 0, and so is expired at every clock.
pub fn all_expired(cache: Option<&Referrals>) -> Result<Referrals, u32> {
    let mut cache = cache.ok_or(NOT_IN_ORDER)?.clone();
    cache.iter_mut().flatten().for_each(|e| e.ttl = 0);
    Ok(cache)
}

/// The entry of an equal prefix has.
pub fn one_expired(cache: Option<&Referrals>, path: &[u16]) -> Result<Referrals, u32> {
    let mut cache = cache.ok_or(NOT_IN_ORDER)?.clone();
    let prefix = normalised(path).map_err(|e| if e == BadPath::Bad { BAD_PATH } else { LONG_PATH })?;
    cache.iter_mut().flatten().find(|e| equal(&e.prefix, &prefix)).ok_or(NO_ENTRY)?.ttl = 0;
    Ok(cache)
}

/// DCHint of the domain with an equal name is its next DC, after the last the first.
pub fn dc_moved(cache: Option<&Domains>, name: &[u16]) -> Result<Domains, u32> {
    let mut cache = cache.ok_or(NOT_IN_ORDER)?.clone();
    let domain = cache.iter_mut().flatten().find(|d| equal(&d.name, name)).ok_or(NO_ENTRY)?;
    let hint = domain.hint.ok_or(NO_ENTRY)?;
    domain.hint = Some((hint + 1) % domain.dcs.len());
    Ok(cache)
}
