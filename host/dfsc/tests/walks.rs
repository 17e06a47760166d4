//! Walks through the wrapper: what is asked, what the answers do, how it ends, and each refusal.
use dfsc::{units, DomainCache, End, Kind, NtStatus, Outcome, Question, ReferralCache, Refusal, Rest, Settings, Walk};

const FAILS: u32 = 0xC000_0001;

fn caches() -> (ReferralCache, DomainCache) {
    (ReferralCache::new(2).unwrap(), DomainCache::new(2).unwrap())
}

fn start_with(refs: &ReferralCache, doms: &DomainCache, path: &str, bootstrap: &str, limit: u32, size: u32) -> Result<Walk, Refusal> {
    let bootstrap = units(bootstrap);
    Walk::start(refs, doms, &units(path), Settings { bootstrap: &bootstrap, limit, size }, 100)
}

fn start(refs: &ReferralCache, doms: &DomainCache, path: &str) -> Walk {
    start_with(refs, doms, path, "dc1", 16, 8192).unwrap()
}

fn string(text: &str) -> Vec<u8> {
    units(text).into_iter().chain([0]).flat_map(u16::to_le_bytes).collect()
}

/// A reply of version 3 with one entry: `prefix` to `target`.
fn referral(prefix: &str, target: &str, root: bool) -> Vec<u8> {
    let at = 34 + string(prefix).len() as u16;
    let fields = [0, 1, 2, 0, 3, 34, root as u16, 0, 300, 0, 34, 34, at];
    [fields.into_iter().flat_map(u16::to_le_bytes).collect(), vec![0; 16], string(prefix), string(target)].concat()
}

/// A DC reply, or with no DCs a domain reply of one name.
fn names(special: &str, dcs: &[&str]) -> Vec<u8> {
    let fields = [0, 1, 0, 0, 3, 18, 0, 2, 300, 0, 18, dcs.len() as u16, 18 + string(special).len() as u16];
    [fields.into_iter().flat_map(u16::to_le_bytes).collect(), string(special), dcs.iter().flat_map(|d| string(d)).collect()].concat()
}

#[test]
fn a_root_and_its_target() {
    let (mut refs, mut doms) = caches();
    let mut walk = start(&refs, &doms, r"\\files\s1\a");
    let Rest::Asks(Question::Referral { kind, party, name, size, request }) = walk.rest(&refs, &doms).unwrap() else { panic!() };
    assert!(kind == Kind::Root && party == "files" && name == r"\files\s1" && size == 8192);
    assert_eq!(request, [vec![4, 0], string(r"\files\s1")].concat());
    assert_eq!(walk.moves(), Ok(1));
    assert_eq!(walk.end(), Err(Refusal::OutOfForm));
    assert_eq!(walk.clone().answer_io(&mut refs, &doms, 0, 100), Err(Refusal::OutOfForm));

    walk.answer_referral(&mut refs, &mut doms, 0, &referral(r"\files\s1", r"\nas1\s1", true), 100).unwrap();
    let Rest::Asks(Question::Io { party, name }) = walk.rest(&refs, &doms).unwrap() else { panic!() };
    assert!(party == r"\nas1\s1" && name == r"\nas1\s1\a");
    walk.answer_io(&mut refs, &doms, 0, 101).unwrap();
    let Rest::Ended(End { outcome, status, path, moves, .. }) = walk.rest(&refs, &doms).unwrap() else { panic!() };
    assert!(outcome == Outcome::Done && status == NtStatus::SUCCESS && path == r"\nas1\s1\a" && moves == 2);
    assert_eq!(walk.question(&refs, &doms), Err(Refusal::OutOfForm));

    // the cache knows it now
    let warm = start(&refs, &doms, r"\FILES\S1\b");
    let Rest::Asks(Question::Io { name, .. }) = warm.rest(&refs, &doms).unwrap() else { panic!() };
    assert!(name == r"\nas1\s1\b");
}

#[test]
fn a_domain_and_its_dcs() {
    let (mut refs, mut doms) = caches();
    assert_eq!(DomainCache::request(), [4, 0, 0, 0]);
    doms.read(&names(r"\corp", &[]), 8192).unwrap();
    let mut walk = start(&refs, &doms, r"\corp\dfs");
    let Question::Referral { kind, party, name, .. } = walk.question(&refs, &doms).unwrap() else { panic!() };
    assert!(kind == Kind::Dc && party == "dc1" && name == r"\corp");
    walk.answer_referral(&mut refs, &mut doms, 0, &names(r"\corp", &["dc2", "dc3"]), 100).unwrap();
    let Question::Referral { kind, party, name, .. } = walk.question(&refs, &doms).unwrap() else { panic!() };
    assert!(kind == Kind::Root && party == "dc2" && name == r"\corp\dfs");

    // the domain is taken away meanwhile
    doms.units_mut().fill(0);
    assert_eq!(walk.question(&refs, &doms), Err(Refusal::Gone));
    walk.answer_referral(&mut refs, &mut doms, 0, &[], 100).unwrap();
    assert_eq!(walk.end().unwrap().outcome, Outcome::Gone);
}

#[test]
fn sysvol() {
    let (mut refs, mut doms) = caches();
    doms.read(&names(r"\corp", &[]), 8192).unwrap();
    let mut walk = start(&refs, &doms, r"\corp\SysVol\x");
    walk.answer_referral(&mut refs, &mut doms, 0, &names(r"\corp", &["dc2"]), 100).unwrap();
    let Question::Referral { kind, .. } = walk.question(&refs, &doms).unwrap() else { panic!() };
    assert_eq!(kind, Kind::Sysvol);
    walk.answer_referral(&mut refs, &mut doms, FAILS, &[], 100).unwrap();
    let end = walk.end().unwrap();
    assert!(end.outcome == Outcome::NoDc && end.status == NtStatus(FAILS) && end.path == r"\corp\SysVol\x");
}

#[test]
fn refusals() {
    let (mut refs, mut doms) = caches();
    let long = format!(r"\a\{}", "b".repeat(254));
    let of = |path: &str, bootstrap: &str, limit, size| start_with(&refs, &doms, path, bootstrap, limit, size).map(|_| ());
    assert_eq!(of("a", "dc1", 16, 8192), Err(Refusal::BadPath));
    assert_eq!(of(&long, "dc1", 16, 8192), Err(Refusal::LongPath));
    for (bootstrap, limit, size) in [("", 16, 8192), ("dc1", 0, 8192), ("dc1", 65, 8192), ("dc1", 16, 1023), ("dc1", 16, 57345)] {
        assert_eq!(of(r"\a\b", bootstrap, limit, size), Err(Refusal::BadSettings));
    }
    assert_eq!(of(r"\a\b", "dc1", 64, 57344), Ok(()));
    assert_eq!(ReferralCache::new(0), Err(Refusal::NotInOrder));
    assert_eq!(DomainCache::new(33), Err(Refusal::NotInOrder));
    let bad = ReferralCache::from_units(vec![1; dfsc::PLACE_UNITS]);
    assert_eq!(start_with(&bad, &doms, r"\a\b", "dc1", 16, 8192).unwrap_err(), Refusal::NotInOrder);

    let before = doms.clone();
    assert_eq!(doms.read(&[], 8192), Err(Refusal::BadDomainReply));
    assert_eq!(doms.read(&[], 1), Err(Refusal::BadSettings));
    let mut one = DomainCache::new(1).unwrap();
    let mut two = [0, 2, 0, 0].into_iter().flat_map(u16::to_le_bytes).collect::<Vec<u8>>();
    two.extend([3, 18, 0, 2, 0, 0, 36, 0, 0, 3, 18, 0, 2, 0, 0, 24, 0, 0].into_iter().flat_map(u16::to_le_bytes));
    two.extend([string(r"\a"), string(r"\b")].concat());
    assert_eq!(one.read(&two, 8192), Err(Refusal::TooManyNames));
    assert_eq!(doms, before);
    assert_eq!(doms.read(&two, 8192), Ok(()));

    let mut walk = start(&refs, &doms, r"\c\d");
    let units_before = *walk.units();
    assert_eq!(walk.answer_io(&mut refs, &doms, 0, 100), Err(Refusal::OutOfForm));
    assert_eq!(*walk.units(), units_before);
    assert_eq!(Walk::from_saved([7; dfsc::WALK_UNITS], &[]).unwrap().rest(&refs, &doms), Err(Refusal::OutOfForm));
}

#[test]
fn a_saved_walk_goes_on() {
    let (mut refs, mut doms) = caches();
    let walk = start(&refs, &doms, r"\files\s1\a");
    let Question::Referral { request, .. } = walk.question(&refs, &doms).unwrap() else { panic!() };
    let mut again = Walk::from_saved(*walk.units(), request).unwrap();
    assert_eq!(again.rest(&refs, &doms), walk.rest(&refs, &doms));
    assert_eq!(Walk::from_saved(*walk.units(), &[0; 517]).unwrap_err(), Refusal::ShortBuffer);
    again.answer_referral(&mut refs, &mut doms, FAILS, &[], 100).unwrap();
    assert_eq!(again.end().unwrap().outcome, Outcome::NotDfs);
    // the one that was copied still waits
    assert!(walk.question(&refs, &doms).is_ok());
}

#[test]
fn a_cache_as_text() {
    let (mut refs, _) = caches();
    assert_eq!(refs.list(), Ok(vec![]));
    let text = units("prefix=\\files\\s1\nkind=root\ninterlink=0\nfailback=1\nttl=300\ntaken=100\nhint=1\ntarget=\\nas1\\s1\ntarget=\\nas2\\s1\n");
    assert_eq!(refs.read(&text), Ok(()));
    assert_eq!(refs.list().as_ref(), Ok(&text));
    let before = refs.clone();
    assert_eq!(refs.read(&text[1..]), Err(Refusal::BadListing));
    let other = units("prefix=\\files\\s2\nkind=link\ninterlink=0\nfailback=0\nttl=0\ntaken=0\nhint=0\ntarget=\\nas1\\s2\n");
    let mut one = ReferralCache::new(1).unwrap();
    assert_eq!(one.read(&[text.clone(), other].concat()), Err(Refusal::TooManyEntries));
    assert_eq!(refs, before);
    assert_eq!(ReferralCache::from_units(vec![1; dfsc::PLACE_UNITS]).list(), Err(Refusal::NotInOrder));
}
