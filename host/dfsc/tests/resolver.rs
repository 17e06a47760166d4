//! The resolver with servers that are played: one walk, and the recipes of docs/HOST.md. Then what a cache, a status and an end look like.
use dfsc::{units, DomainCache, Kind, Network, NtStatus, Outcome, ReferralCache, Refusal, Resolver, Text};
use std::collections::HashMap;
use std::io::ErrorKind;

/// Referrals by server and name asked, statuses of I/O by path; nothing else is there.
#[derive(Default)]
struct Servers {
    referrals: HashMap<(String, String), Vec<u8>>,
    files: HashMap<String, u32>,
    asked: Vec<String>,
    clock: u32,
}

impl Servers {
    fn link(&mut self, server: &str, asked: &str, root: bool, prefix: &str, targets: &[&str]) {
        self.referrals.insert((server.into(), asked.into()), referral(prefix, targets, root));
    }

    fn file(&mut self, path: &str, status: u32) {
        self.files.insert(path.into(), status);
    }
}

impl Network for Servers {
    fn referral(&mut self, server: &Text, request: &[u8], size: u32) -> (NtStatus, Vec<u8>) {
        let name: Vec<u16> = request[2..request.len() - 2].chunks(2).map(|b| u16::from_le_bytes([b[0], b[1]])).collect();
        let name = String::from_utf16(&name).unwrap();
        self.asked.push(format!("{server} {name}"));
        match self.referrals.get(&(server.to_string(), name)) {
            Some(reply) if reply.len() > size as usize => (NtStatus::BUFFER_OVERFLOW, vec![]),
            Some(reply) => (NtStatus::SUCCESS, reply.clone()),
            None => (ErrorKind::ConnectionRefused.into(), vec![]),
        }
    }

    fn io(&mut self, path: &Text) -> NtStatus {
        self.asked.push(path.to_string());
        self.files.get(&path.to_string()).map_or(NtStatus::BAD_NETWORK_PATH, |s| NtStatus(*s))
    }

    fn clock(&mut self) -> u32 {
        self.clock
    }
}

fn string(text: &str) -> Vec<u8> {
    units(text).into_iter().chain([0]).flat_map(u16::to_le_bytes).collect()
}

/// A reply of version 3 whose TTL is 300.
fn referral(prefix: &str, targets: &[&str], root: bool) -> Vec<u8> {
    let (mut entries, mut texts) = (vec![0, targets.len() as u16, 2, 0], string(prefix));
    for (i, target) in targets.iter().enumerate() {
        let after = 34 * (targets.len() - i) as u16;
        entries.extend([3, 34, root as u16, 0, 300, 0, after, after, after + texts.len() as u16]);
        entries.extend([0; 8]);
        texts.extend(string(target));
    }
    entries.into_iter().flat_map(u16::to_le_bytes).chain(texts).collect()
}

/// A DC reply for a name, or a domain reply of names without DCs.
fn names(special: &[&str], dcs: &[&str]) -> Vec<u8> {
    let (mut entries, mut texts) = (vec![0, special.len() as u16, 0, 0], vec![]);
    for (i, name) in special.iter().enumerate() {
        let at = (18 * (special.len() - i) + texts.len()) as u16;
        entries.extend([3, 18, 0, 2, 300, 0, at, dcs.len() as u16, at + string(name).len() as u16]);
        texts.extend(string(name));
    }
    texts.extend(dcs.iter().flat_map(|d| string(d)));
    entries.into_iter().flat_map(u16::to_le_bytes).chain(texts).collect()
}

/// A namespace at `files` with the link `train` to two servers, of which the second has the file.
fn train() -> Servers {
    let mut s = Servers { clock: 100, ..Servers::default() };
    s.link("files", r"\files\rec", true, r"\files\rec", &[r"\files\rec"]);
    s.file(r"\files\rec\train\a", 0xC000_0257);
    s.link("files", r"\files\rec\train\a", false, r"\files\rec\train", &[r"\old1\train", r"\old2\train"]);
    s.file(r"\old2\train\a", 0);
    s
}

fn train_path() -> Vec<u16> {
    units(r"\\files\rec\train\a")
}

#[test]
fn one_walk() {
    let (mut s, mut r) = (train(), Resolver::new("none"));
    let end = r.walk(&train_path(), &mut s).unwrap();
    assert!(end.outcome == Outcome::Done && end.path == r"\old2\train\a" && end.moves == 5);
    assert_eq!(r.walk(&units("train"), &mut s), Err(Refusal::BadPath));
    // the next begins at the target that answered
    s.asked.clear();
    r.walk(&train_path(), &mut s).unwrap();
    assert_eq!(s.asked, [r"\old2\train\a"]);
}

#[test]
fn another_namespace() {
    let (mut s, mut r) = (train(), Resolver::new("none"));
    s.file(r"\old2\train\a", 0xC000_0257);
    s.link("old2", r"\old2\train", true, r"\old2\train", &[r"\old2\train"]);
    s.link("old2", r"\old2\train\a", false, r"\old2\train\a", &[r"\new\a"]);
    s.file(r"\new\a", 0);
    assert_eq!(r.walk(&train_path(), &mut s).unwrap().status, NtStatus::PATH_NOT_COVERED);
    let end = r.follow(&train_path(), &mut s, 8).unwrap();
    assert!(end.outcome == Outcome::Done && end.path == r"\new\a");
    // two links that lead to each other: it ends
    s.link("old2", r"\old2\train\a", false, r"\old2\train\a", &[r"\files\rec\train\a"]);
    s.file(r"\new\a", 0xC000_0257);
    r.referrals.clear();
    let end = r.follow(&train_path(), &mut s, 8).unwrap();
    assert!(end.outcome == Outcome::Failed && end.status == NtStatus::PATH_NOT_COVERED && s.asked.len() < 100);
}

#[test]
fn targets_that_are_gone() {
    let (mut s, mut r) = (train(), Resolver::new("none"));
    r.walk(&train_path(), &mut s).unwrap();
    // the link is moved while its entry is fresh, and the old servers are switched off
    s.link("files", r"\files\rec\train\a", false, r"\files\rec\train", &[r"\new1\train", r"\new2\train"]);
    s.files.remove(r"\old2\train\a");
    s.file(r"\new1\train\a", 0);
    assert_eq!(r.walk(&train_path(), &mut s).unwrap().outcome, Outcome::Failed);
    let end = r.follow(&train_path(), &mut s, 8).unwrap();
    assert!(end.outcome == Outcome::Done && end.path == r"\new1\train\a");
    // nothing is there any more: it is asked for anew once
    s.files.remove(r"\new1\train\a");
    s.asked.clear();
    assert_eq!(r.follow(&train_path(), &mut s, 8).unwrap().status, NtStatus::BAD_NETWORK_PATH);
    assert_eq!(s.asked.iter().filter(|a| a.starts_with("files ")).count(), 1);
}

#[test]
fn a_root_that_moved() {
    let (mut s, mut r) = (train(), Resolver::new("none"));
    s.link("files", r"\files\rec", true, r"\files\rec", &[r"\ns1\rec"]);
    s.file(r"\ns1\rec\train\a", 0xC000_0257);
    s.link("ns1", r"\files\rec\train\a", false, r"\files\rec\train", &[r"\old1\train", r"\old2\train"]);
    r.walk(&train_path(), &mut s).unwrap();
    // past both TTLs the link is asked for at the old root target
    s.clock = 1000;
    s.link("files", r"\files\rec", true, r"\files\rec", &[r"\ns2\rec"]);
    s.file(r"\ns2\rec\train\a", 0xC000_0257);
    let moved = s.referrals.remove(&("ns1".into(), r"\files\rec\train\a".into())).unwrap();
    s.referrals.insert(("ns2".into(), r"\files\rec\train\a".into()), moved);
    let end = r.walk(&train_path(), &mut s).unwrap();
    assert!(end.outcome == Outcome::Failed && end.status == NtStatus::CONNECTION_REFUSED);
    assert_eq!(r.follow(&train_path(), &mut s, 8).unwrap().outcome, Outcome::Done);
}

#[test]
fn domains_and_sysvol() {
    let (mut s, mut r) = (Servers::default(), Resolver::new("dc0"));
    r.size = 1024;
    assert_eq!(r.fill_domains(&mut s), Ok(NtStatus::CONNECTION_REFUSED));
    let long: Vec<String> = (0..20).map(|i| format!("\\domain-{i:02}-of-the-forest.example")).collect();
    let all: Vec<&str> = [r"\CORP", r"\corp.example"].into_iter().chain(long.iter().map(String::as_str)).collect();
    s.referrals.insert(("dc0".into(), "".into()), names(&all, &[]));
    s.asked.clear();
    assert_eq!(r.fill_domains(&mut s), Ok(NtStatus::SUCCESS));
    assert_eq!((s.asked.len(), r.domains.entries().count()), (2, 22), "the size was doubled once");

    s.referrals.insert(("dc0".into(), r"\corp.example".into()), names(&[r"\corp.example"], &["dc1", "dc2", "dc3"]));
    let path = units(r"\corp.example\SYSVOL\x");
    let end = r.follow(&path, &mut s, 8).unwrap();
    assert!(end.outcome == Outcome::NoDc && end.status == NtStatus::CONNECTION_REFUSED);
    assert_eq!(s.asked[3..], [r"dc1 \corp.example\SYSVOL", r"dc2 \corp.example\SYSVOL", r"dc3 \corp.example\SYSVOL"]);
    s.link("dc2", r"\corp.example\SYSVOL", true, r"\corp.example\sysvol", &[r"\dc2\sysvol"]);
    s.file(r"\dc2\sysvol\x", 0);
    let end = r.follow(&path, &mut s, 8).unwrap();
    assert!(end.outcome == Outcome::Done && end.path == r"\dc2\sysvol\x");
    let hint = |r: &Resolver| r.domains.entries().find(|d| d.name == "corp.example").unwrap().hint;
    assert_eq!(hint(&r), 1);
    assert_eq!((r.domains.next_dc(&units("Corp.Example")), hint(&r)), (Ok(()), 2));
    assert_eq!((r.domains.next_dc(&units("corp.example")), hint(&r)), (Ok(()), 0), "from the last to the first");
    let before = r.domains.clone();
    for name in ["CORP", "corp.exampl", ""] {
        assert_eq!(r.domains.next_dc(&units(name)), Err(Refusal::Gone), "a domain without DCs, and names that are not there");
    }
    assert_eq!(r.domains, before);
    assert!(r.domains.entry(&units("corp")).is_some_and(|d| d.name == "CORP") && r.domains.entry(&units("cor")).is_none());
}

#[test]
fn entries() {
    let (mut s, mut r) = (train(), Resolver::new("none"));
    r.walk(&train_path(), &mut s).unwrap();
    let all: Vec<_> = r.referrals.entries().collect();
    assert_eq!(all.len(), 2);
    assert!(all[0].place == 0 && all[0].root && all[0].prefix == r"\files\rec" && !all[1].root && !all[1].interlink && !all[1].failback);
    assert!(all[1].ttl == 300 && all[1].taken == 100 && all[1].hint == 1 && all[1].targets[1].path == r"\old2\train" && !all[1].targets[1].opens_set);
    assert!(!all[1].expired(399) && all[1].expired(400) && all[1].expired(99));
    let kept = r.referrals.clone();
    assert_eq!(r.referrals.expire(&units(r"\\Files\REC\")), Ok(()));
    let after: Vec<_> = r.referrals.entries().collect();
    assert!(after[0].ttl == 0 && after[0].taken == all[0].taken && after[0].targets == all[0].targets && after[1] == all[1]);
    for (path, refusal) in [(r"\files", Refusal::Gone), (r"\files\rec\trai", Refusal::Gone), ("files", Refusal::BadPath), (r"\a\..", Refusal::BadPath)] {
        assert_eq!(r.referrals.expire(&units(path)), Err(refusal));
    }
    assert_eq!(r.referrals.expire(&units(&format!(r"\a\{}", "b".repeat(254)))), Err(Refusal::LongPath));
    r.referrals = kept;
    assert_eq!(r.referrals.expire_all(), Ok(()));
    assert!(r.referrals.entries().all(|e| e.ttl == 0 && e.taken == 100 && [100, 0, u32::MAX].iter().all(|c| e.expired(*c))));
    r.referrals.clear();
    assert_eq!(r.referrals, ReferralCache::new(32).unwrap());
    // any units can be looked at
    for fill in [1, 9, 256, 257, 0xFFFF] {
        let units = vec![fill; 2 * dfsc::PLACE_UNITS + 7];
        assert_eq!(ReferralCache::from_units(units.clone()).entries().count(), 2);
        assert_eq!(DomainCache::from_units(units.clone()).entries().count(), 2);
        assert_eq!(ReferralCache::from_units(units.clone()).expire_all(), Err(Refusal::NotInOrder));
        assert_eq!(ReferralCache::from_units(units.clone()).expire(&[]), Err(Refusal::NotInOrder));
        assert_eq!(DomainCache::from_units(units).next_dc(&[fill; 256]), Err(Refusal::NotInOrder));
    }
}

#[test]
fn shown() {
    let (mut s, mut r) = (train(), Resolver::new("none"));
    let end = r.walk(&train_path(), &mut s).unwrap();
    assert_eq!(end.to_string(), r"done (20), status 00000000 SUCCESS, \old2\train\a after 5 moves");
    let debug = format!("{:?}", r.referrals);
    assert!(
        debug.len() < 1000 && debug.starts_with("ReferralCache { places: 32, entries: [ReferralEntry { place: 0, prefix: \"\\\\files\\\\rec\", root: true,"),
        "{debug}"
    );
    assert_eq!(format!("{:?}", r.domains), "DomainCache { places: 32, entries: [] }");
    assert_eq!((Kind::Sysvol.to_string(), Outcome::NoDc.to_string()), ("sysvol".into(), "no DC (22)".into()));
    assert_eq!((NtStatus(0xC000_006D).to_string(), format!("{:?}", NtStatus::IO_TIMEOUT)), ("C000006D".into(), "NtStatus(C00000B5 IO_TIMEOUT)".into()));
    let text = r.referrals.entries().next().unwrap().prefix;
    assert_eq!((text.component(1).to_string(), text.component(2).len(), text.components().count()), ("rec".into(), 0, 2));
}

#[test]
fn the_network_as_statuses() {
    use ErrorKind::*;
    let all = [ConnectionRefused, ConnectionReset, ConnectionAborted, NotConnected, BrokenPipe, UnexpectedEof, TimedOut, WouldBlock, HostUnreachable];
    for kind in all.into_iter().chain([NetworkUnreachable, NetworkDown, AddrNotAvailable, PermissionDenied, Other]) {
        assert!(NtStatus::from(kind).tries_next_target(), "{kind}");
    }
    assert_eq!(NtStatus::from(ConnectionReset), NtStatus::NETWORK_NAME_DELETED);
    assert_eq!(NtStatus::from(&std::io::Error::from(TimedOut)), NtStatus::IO_TIMEOUT);
    // by their own names they would end the walk
    for status in [0xC000_020D, 0xC000_0241, 0xC000_023C, 0xC000_0257, 0] {
        assert!(!NtStatus(status).tries_next_target());
    }
    assert_eq!((NtStatus::BUFFER_OVERFLOW.severity(), u32::from(NtStatus::from(7))), (2, 7));
}
