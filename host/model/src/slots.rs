//! Memory to lend: a heap block of exactly the slice's length, or pages with an unreadable one before and after them, where the slice ends or begins
//! at one of the two. The only file of this program with `unsafe`.
use std::ffi::c_void;

extern "C" {
    fn mmap(address: *mut c_void, bytes: usize, protection: i32, flags: i32, file: i32, offset: i64) -> *mut c_void;
    fn mprotect(address: *mut c_void, bytes: usize, protection: i32) -> i32;
}

// Linux on x86-64
const PAGE: usize = 4096;
const PROT_NONE: i32 = 0;
const PROT_READ_AND_WRITE: i32 = 1 | 2;
const MAP_PRIVATE_AND_ANONYMOUS: i32 = 2 | 0x20;

/// The bytes of a slot: more than the longest slice that is lent.
const ROOM: usize = 250 * PAGE;
/// So many bytes on the readable side of the slice are painted, and looked at after the call.
const MARGIN: usize = 64;
const PAINT: u8 = 0xC5;

#[derive(Clone, Copy, Debug, PartialEq)]
pub enum Side {
    /// The slice ends where an unreadable page begins.
    End,
    /// The slice begins where an unreadable page ends.
    Start,
}

/// u8, u16 and u32: every content is a value.
pub trait Unit: Copy + PartialEq {}
impl Unit for u8 {}
impl Unit for u16 {}
impl Unit for u32 {}

/// `ROOM` bytes between two unreadable pages.
struct Pages(*mut u8);

impl Pages {
    fn new() -> Pages {
        unsafe {
            let base = mmap(std::ptr::null_mut(), ROOM + 2 * PAGE, PROT_READ_AND_WRITE, MAP_PRIVATE_AND_ANONYMOUS, -1, 0);
            assert!(base as isize != -1, "mmap");
            assert!(mprotect(base, PAGE, PROT_NONE) == 0 && mprotect(base.add(PAGE + ROOM), PAGE, PROT_NONE) == 0, "mprotect");
            Pages(base.cast::<u8>().add(PAGE))
        }
    }

    // Where a slice of so many bytes stands, and where its margin.
    fn spots(&self, side: Side, bytes: usize) -> (*mut u8, *mut u8) {
        assert!(bytes + MARGIN <= ROOM, "a slice of {bytes} bytes");
        unsafe {
            match side {
                Side::End => (self.0.add(ROOM - bytes), self.0.add(ROOM - bytes - MARGIN)),
                Side::Start => (self.0, self.0.add(bytes)),
            }
        }
    }
}

enum Memory<T> {
    Exact(Box<[T]>),
    Paged { pages: Pages, side: Side, length: usize },
}

/// The memory of one lent slice, used again for the next call.
pub struct Slot<T>(Memory<T>);

impl<T: Unit> Slot<T> {
    pub fn new(side: Option<Side>) -> Slot<T> {
        Slot(match side {
            Some(side) => Memory::Paged { pages: Pages::new(), side, length: 0 },
            None => Memory::Exact(Box::default()),
        })
    }

    /// A copy of the slice, in memory of exactly its length.
    pub fn lend(&mut self, slice: &[T]) -> &mut [T] {
        match &mut self.0 {
            Memory::Exact(held) => {
                *held = slice.into();
                held
            }
            Memory::Paged { pages, side, length } => {
                *length = slice.len();
                let (at, margin) = pages.spots(*side, std::mem::size_of_val(slice));
                unsafe {
                    margin.write_bytes(PAINT, MARGIN);
                    let at = at.cast::<T>();
                    at.copy_from_nonoverlapping(slice.as_ptr(), slice.len());
                    std::slice::from_raw_parts_mut(at, slice.len())
                }
            }
        }
    }

    /// The control: the slice is told whole, and of its memory so many elements are missing, the last ones (or the first where slices begin at an
    /// unreadable page). Whoever uses such an element uses memory that is not lent.
    pub fn lend_short(&mut self, slice: &[T], missing: usize) -> &mut [T] {
        let starts = matches!(self.0, Memory::Paged { side: Side::Start, .. });
        let held = self.lend(if starts { &slice[missing..] } else { &slice[..slice.len() - missing] });
        let from = if starts { held.as_mut_ptr().wrapping_sub(missing) } else { held.as_mut_ptr() };
        unsafe { std::slice::from_raw_parts_mut(from, slice.len()) }
    }

    fn held(&self) -> &[T] {
        match &self.0 {
            Memory::Exact(held) => held,
            Memory::Paged { pages, side, length } => unsafe {
                let (at, margin) = pages.spots(*side, length * std::mem::size_of::<T>());
                assert!(std::slice::from_raw_parts(margin, MARGIN).iter().all(|b| *b == PAINT), "memory beside a lent slice is written");
                std::slice::from_raw_parts(at.cast::<T>(), *length)
            },
        }
    }

    /// What a call that only reads it has left: what was lent.
    pub fn is_as_lent(&self, slice: &[T]) {
        assert!(self.held() == slice, "a slice that is lent to be read is written");
    }

    /// What a call that may write it has left.
    pub fn take_back(&self, slice: &mut [T]) {
        slice.copy_from_slice(self.held());
    }
}
