//! The stack that a call takes: the memory below the caller's frame is filled with a pattern, the call made, and the lowest byte that changed looked for.
//! It has to run on a thread whose stack is mapped as a whole, so not on the main one.
use std::cell::{Cell, RefCell};
use std::collections::BTreeMap;
use std::hint::black_box;

const PATTERN: u64 = 0xA5A5_5A5A_C3C3_3C3C;
/// How far below the frame is painted, in bytes; and how far below a local the painting starts, so that the frame itself stays.
const DEPTH: usize = 64 * 1024;
const GAP: usize = 512;

/// The greatest figure of a call: of any, and of those in a box (limit 32 at most, a buffer for every request).
#[derive(Clone, Copy, Default)]
pub struct Most {
    pub any: usize,
    pub boxed: usize,
}

thread_local! {
    static MOST: RefCell<BTreeMap<&'static str, Most>> = RefCell::new(BTreeMap::new());
    static BOXED: Cell<bool> = const { Cell::new(true) };
}

/// What `call` measures is of a walk in a box, or not.
pub fn boxed<T>(yes: bool, call: impl FnOnce() -> T) -> T {
    BOXED.with(|b| b.set(yes));
    let r = call();
    BOXED.with(|b| b.set(true));
    r
}

#[inline(never)]
fn paint() -> usize {
    let local = 0u64;
    let top = (black_box(&local) as *const u64 as usize - GAP) & !15;
    let mut at = top;
    while at > top - DEPTH {
        at -= 8;
        unsafe { std::ptr::write_volatile(at as *mut u64, PATTERN) };
    }
    top
}

/// The bytes below `from` down to the lowest that is not as painted.
#[inline(never)]
fn depth(top: usize, from: usize) -> usize {
    let mut at = top - DEPTH;
    while at < top && unsafe { std::ptr::read_volatile(at as *const u64) } == PATTERN {
        at += 8;
    }
    from - at
}

pub fn measured<T>(name: &'static str, call: impl FnOnce() -> T) -> T {
    let here = 0u64;
    let from = black_box(&here) as *const u64 as usize;
    let top = paint();
    let r = black_box(call());
    let n = depth(top, from);
    MOST.with(|m| {
        let mut m = m.borrow_mut();
        let most = m.entry(name).or_default();
        most.any = n.max(most.any);
        if BOXED.with(Cell::get) {
            most.boxed = n.max(most.boxed);
        }
    });
    r
}

/// The greatest figure of each call since the last time that this was asked.
pub fn most() -> BTreeMap<&'static str, Most> {
    MOST.with(|m| std::mem::take(&mut *m.borrow_mut()))
}
