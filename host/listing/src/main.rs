//! Compares the proved listing, and reading it back, with plain ones, and times both. Exits with 1 where the usual case takes 100 us or more to list, or
//! 300 us or more to read. Usual: 32 entries of a prefix and four targets of 30 units each. Worst: 32 entries of nine texts of 256 units, all but the backslashes escaped.
use dfsc::calls::{list, read};
use std::hint::black_box;
use std::time::Instant;

const PLACE: usize = 2336;
const NOT_IN_ORDER: u64 = 4 << 32;
const TOO_SHORT: u64 = 10 << 32;

/// Two components of one unit over and over, with a tag at the end.
fn path(units: usize, unit: u16, tag: usize) -> Vec<u16> {
    let mut p = vec![unit; units];
    p[0] = 92;
    p[units / 2] = 92;
    p[units - 2] = unit + (tag / 16) as u16;
    p[units - 1] = unit + (tag % 16) as u16;
    p
}

fn cache(units: usize, unit: u16, targets: usize) -> Vec<u16> {
    let mut cache = vec![0u16; 32 * PLACE];
    for (i, piece) in cache.chunks_mut(PLACE).enumerate() {
        for j in 0..=targets {
            let t = path(units, unit, if j == 0 { i } else { 100 + j });
            piece[j] = t.len() as u16;
            piece[32 + 256 * j..32 + 256 * j + t.len()].copy_from_slice(&t);
        }
        piece[9] = targets as u16;
        piece[10] = (i % targets) as u16;
        piece[12] = 1;
        piece[19] = (i % 2) as u16;
        piece[20] = (i / 2 % 2) as u16;
        piece[21] = (i / 4 % 2) as u16;
        piece[22] = 300;
        piece[23] = i as u16;
        piece[25] = 65535;
    }
    cache
}

fn spelled(s: &[u16]) -> String {
    s.iter()
        .map(|u| match *u {
            126 => "~007E".to_string(),
            33..=125 => (*u as u8 as char).to_string(),
            _ => format!("~{u:04X}"),
        })
        .collect()
}

/// The listing in plain Rust, of a cache that is in order.
fn plain(cache: &[u16]) -> Vec<u16> {
    let mut o = String::new();
    for p in cache.chunks(PLACE).filter(|p| p[0] != 0) {
        let text = |j: usize| spelled(&p[32 + 256 * j..32 + 256 * j + p[j] as usize]);
        let wide = |j: usize| p[j] as u32 + 65536 * p[j + 1] as u32;
        o += &format!("prefix={}\nkind={}\n", text(0), if p[19] == 1 { "root" } else { "link" });
        o += &format!("interlink={}\nfailback={}\nttl={}\ntaken={}\nhint={}\n", p[20], p[21], wide(22), wide(24), p[10]);
        for j in 1..=p[9] as usize {
            o += &format!("target={}\n", text(j));
        }
    }
    o.encode_utf16().collect()
}

/// The least time of one call in microseconds, over many short rounds: other work on the machine falls into some of them only.
fn time(call: impl FnMut(), calls: u32) -> f64 {
    least(400, call, calls)
}

fn least(rounds: u32, mut call: impl FnMut(), calls: u32) -> f64 {
    (0..rounds)
        .map(|_| {
            let t = Instant::now();
            for _ in 0..calls {
                call();
            }
            t.elapsed().as_nanos() as f64 / calls as f64 / 1e3
        })
        .fold(f64::MAX, f64::min)
}

/// A listing of so many entries, each with one target.
fn many(entries: usize) -> Vec<u16> {
    let entry = |i| format!("prefix=\\files\\link{i:04}\nkind=link\ninterlink=0\nfailback=0\nttl=300\ntaken=0\nhint=0\ntarget=\\nas1\\link{i:04}\n");
    (0..entries).map(entry).collect::<String>().encode_utf16().collect()
}

/// What reading the listing of a cache leaves: no gaps, one set each.
fn packed(cache: &[u16]) -> Vec<u16> {
    let mut o: Vec<u16> = cache.chunks(PLACE).filter(|p| p[0] != 0).flatten().copied().collect();
    o.resize(cache.len(), 0);
    for p in o.chunks_mut(PLACE) {
        p[11..19].fill(0);
    }
    o
}

fn compare(c: &[u16]) {
    let want = plain(c);
    let units = want.len() as u64;
    let mut out = vec![7u16; want.len() + 3];
    assert_eq!(list(c, &mut out), units);
    assert!(out[..want.len()] == want[..], "another text");
    assert_eq!(out[want.len()..], [7, 7, 7]);
    let mut exact = vec![7u16; want.len()];
    assert_eq!(list(c, &mut exact), units);
    if !want.is_empty() {
        let mut short = vec![7u16; want.len() - 1];
        assert_eq!(list(c, &mut short), TOO_SHORT);
        assert!(short.iter().all(|u| *u == 7));
    }
    let mut back = vec![7u16; c.len()];
    assert_eq!(read(&want, &mut back), 0);
    assert!(back == packed(c), "another cache");
    let full = c.chunks(PLACE).filter(|p| p[0] != 0).count();
    if full > 1 {
        let mut few = vec![7u16; (full - 1) * PLACE];
        assert_eq!(read(&want, &mut few), 9);
        assert!(few.iter().all(|u| *u == 7));
        // what is wrong anywhere is 8 before 9
        assert_eq!(read(&want[..want.len() - 1], &mut few), 8);
        assert!(few.iter().all(|u| *u == 7));
    }
    let mut none = vec![7u16; PLACE + 1];
    assert_eq!(read(&want, &mut none), 4);
    assert!(none.iter().all(|u| *u == 7));
}

/// Each unit of a listing changed in turn: either it is refused and the cache stays, or the text is listed again as it is.
fn changed(c: &[u16]) -> (usize, usize) {
    let text = plain(c);
    let (mut read_again, mut refused) = (0, 0);
    let mut out = vec![0u16; text.len() + 8];
    for i in 0..text.len() {
        for u in [10, 48, 65, 92, 97, 126, 0x4e00] {
            let mut other = text.clone();
            other[i] = u;
            let mut back = vec![7u16; c.len()];
            let n = read(&other, &mut back);
            if n == 0 {
                assert_eq!(list(&back, &mut out), other.len() as u64);
                assert!(out[..other.len()] == other[..], "another text");
                read_again += 1;
            } else {
                assert_eq!(n, 8);
                assert!(back.iter().all(|u| *u == 7));
                refused += 1;
            }
        }
    }
    (read_again, refused)
}

fn main() {
    let usual = cache(30, 97, 4);
    let worst = cache(256, 0x4e00, 8);
    let mut gaps = usual.clone();
    gaps[3 * PLACE..5 * PLACE].fill(0);
    gaps[..PLACE].fill(0);
    let odd = cache(40, 120, 3);
    for c in [&usual, &worst, &gaps, &odd, &vec![0u16; PLACE]] {
        compare(c);
    }
    let mut bad = usual.clone();
    bad[10] = 4;
    let mut out = vec![7u16; 400_000];
    assert_eq!(list(&bad, &mut out), NOT_IN_ORDER);
    assert!(out.iter().all(|u| *u == 7));
    println!("listings compared: 6, and read back: 5");
    let (read_again, refused) = changed(&cache(12, 97, 2)[..2 * PLACE]);
    println!("listings with one unit changed: {read_again} read, {refused} refused");
    let u = time(|| { black_box(list(black_box(&usual), black_box(&mut out))); }, 4);
    let w = time(|| { black_box(list(black_box(&worst), black_box(&mut out))); }, 1);
    println!("listing of 32 entries with four targets of 30 units: {u:.1} us");
    println!("listing of 32 entries with eight targets of 256 units, all escaped: {w:.1} us, {} units", plain(&worst).len());
    let (text, long) = (plain(&usual), plain(&worst));
    let mut back = vec![0u16; usual.len()];
    let r = time(|| { assert_eq!(read(black_box(&text), black_box(&mut back)), 0); }, 4);
    let l = time(|| { assert_eq!(read(black_box(&long), black_box(&mut back)), 0); }, 1);
    println!("reading 32 entries with four targets of 30 units: {r:.1} us");
    println!("reading 32 entries with eight targets of 256 units, all escaped: {l:.1} us");
    // too many for a cache of 32 places: refused when all of it has been tested
    let text = many(4600);
    let m = least(5, || { assert_eq!(read(black_box(&text), black_box(&mut back)), 9); }, 1);
    println!("refusing 4,600 entries with one target, {} units: {:.2} s", text.len(), m / 1e6);
    if u >= 100.0 || r >= 300.0 {
        println!("100 us or more to list, or 300 us or more to read");
        std::process::exit(1);
    }
}
