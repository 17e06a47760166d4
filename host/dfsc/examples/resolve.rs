//! host/examples/resolve.c in Rust: resolves \\PEERHOST\dfs\link2\docs\a.txt against answers recorded here, and prints the questions and the end.
use dfsc::{units, DomainCache, Question, ReferralCache, Refusal, Rest, Settings, Walk};

/// Replies of a Samba 4.17 server: vectors/captures/samba-root-host-l4.json and samba-dfstree-link2.json.
const ROOT: &str = "1a0001000300000003002200010000005802000022003e005a00000000000000000000000000000000005c00500045004500520048004f00530054005c00640066007300\
    00005c00500045004500520048004f00530054005c0064006600730000005c00500045004500520048004f00530054005c006400660073000000";
const LINK: &str = "260002000200000003002200000000005802000044006c009400000000000000000000000000000000000300220000000000580200009200ba00e2000000000000000000\
    00000000000000005c00500045004500520048004f00530054005c006400660073005c006c0069006e006b00320000005c00500045004500520048004f00530054005c00\
    6400660073005c006c0069006e006b00320000005c0073006500720076006500720031005c0073006800610072006500310000005c00500045004500520048004f005300\
    54005c006400660073005c006c0069006e006b00320000005c00500045004500520048004f00530054005c006400660073005c006c0069006e006b00320000005c007300\
    6500720076006500720032005c007300680061007200650032000000";

/// The answers in order; I/O has no reply. The root target does not hold the link, the link's first target is not to be reached.
const ANSWERS: [(u32, &str); 5] = [(0, ROOT), (0xC000_0257, ""), (0, LINK), (0xC000_00CC, ""), (0, "")];

fn bytes(hex: &str) -> Vec<u8> {
    (0..hex.len() / 2).map(|i| u8::from_str_radix(&hex[2 * i..2 * i + 2], 16).unwrap()).collect()
}

fn main() -> Result<(), Refusal> {
    let (mut refs, mut doms) = (ReferralCache::new(4)?, DomainCache::new(4)?);
    let bootstrap = units("dc1");
    let settings = Settings { bootstrap: &bootstrap, limit: 16, size: 8192 };
    let mut walk = Walk::start(&refs, &doms, &units(r"\\PEERHOST\dfs\link2\docs\a.txt"), settings, 100)?;
    for (clock, (status, reply)) in (100..).zip(ANSWERS) {
        match walk.rest(&refs, &doms)? {
            Rest::Asks(Question::Referral { kind, party, name, size, request }) => {
                println!("ask={kind}\nto={party}\nname={name}");
                println!("size={size} request={} bytes", request.len());
                walk.answer_referral(&mut refs, &mut doms, status, &bytes(reply), clock)?;
            }
            Rest::Asks(Question::Io { party, name }) => {
                println!("ask=io\nto={party}\nname={name}");
                walk.answer_io(&mut refs, &doms, status, clock)?;
            }
            _ => break,
        }
    }
    let end = walk.end()?;
    println!("end={} status={:08X} moves={}\npath={}", end.outcome.number(), end.status, end.moves, end.path);
    Ok(())
}
