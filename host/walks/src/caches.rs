//! The caches of a scenario as lent memory: the layout of crates/cache/specs/places/Layout.antt, written from the vectors' lines.
use crate::lines::{field, units};
use dfsc::PLACE_UNITS as PLACE;

const HEAD: usize = 32;
const ROOM: usize = 256;

#[derive(Clone, PartialEq)]
pub struct Caches {
    pub refs: Vec<u16>,
    pub doms: Vec<u16>,
}

// A text of place p: a longer one than its room is cut, and its length tells that the place is not in order.
fn put(cache: &mut [u16], p: usize, j: usize, text: &[u16]) {
    let at = p * PLACE;
    if j < 9 {
        cache[at + j] = text.len() as u16;
        for (k, u) in text.iter().take(ROOM).enumerate() {
            cache[at + HEAD + j * ROOM + k] = *u;
        }
    }
}

fn put_wide(cache: &mut [u16], at: usize, v: u32) {
    cache[at] = v as u16;
    cache[at + 1] = (v >> 16) as u16;
}

impl Caches {
    /// From lines `referrals`, `entry`, `target`, `domains`, `domain`, `dc`.
    pub fn read(lines: &[&str]) -> Caches {
        let mut c = Caches { refs: vec![], doms: vec![] };
        let mut p = 0;
        for l in lines {
            let flag = |k: &str| (field(l, k) == "1") as u16;
            let number = |k: &str| field(l, k).parse::<u32>().unwrap();
            match l.split(' ').next().unwrap() {
                "referrals" => c.refs = vec![0; number("places") as usize * PLACE],
                "domains" => c.doms = vec![0; number("places") as usize * PLACE],
                "entry" => {
                    p = number("place") as usize;
                    let at = p * PLACE;
                    put(&mut c.refs, p, 0, &units(field(l, "prefix")));
                    c.refs[at + 10] = number("hint") as u16;
                    c.refs[at + 19] = (field(l, "kind") == "root") as u16;
                    c.refs[at + 20] = flag("interlink");
                    c.refs[at + 21] = flag("failback");
                    put_wide(&mut c.refs, at + 22, number("ttl"));
                    put_wide(&mut c.refs, at + 24, number("taken"));
                }
                "target" => {
                    let n = c.refs[p * PLACE + 9] as usize;
                    put(&mut c.refs, p, 1 + n, &units(field(l, "path")));
                    if n < 8 {
                        c.refs[p * PLACE + 11 + n] = flag("boundary");
                    }
                    c.refs[p * PLACE + 9] += 1;
                }
                "domain" => {
                    p = number("place") as usize;
                    put(&mut c.doms, p, 0, &units(field(l, "name")));
                    // held as 0 where it is not valid
                    c.doms[p * PLACE + 10] = if field(l, "hint") == "none" { 0 } else { number("hint") as u16 };
                }
                "dc" => {
                    let n = c.doms[p * PLACE + 9] as usize;
                    put(&mut c.doms, p, 1 + n, &units(field(l, "name")));
                    c.doms[p * PLACE + 9] += 1;
                }
                w => panic!("a line of caches begins {w}"),
            }
        }
        c
    }
}
