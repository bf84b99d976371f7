//! Cells to lend with nothing round them: closed pages on both sides, or a piece of the heap of exactly their size, which memcheck watches.
use std::ffi::c_void;
use std::marker::PhantomData;
use std::ptr::{null_mut, slice_from_raw_parts_mut};

unsafe extern "C" {
    fn mmap(at: *mut c_void, bytes: usize, protection: i32, flags: i32, file: i32, offset: i64) -> *mut c_void;
    fn mprotect(at: *mut c_void, bytes: usize, protection: i32) -> i32;
    fn munmap(at: *mut c_void, bytes: usize) -> i32;
}

const CLOSED: i32 = 0;
const READ_AND_WRITE: i32 = 3;
const PRIVATE_ANONYMOUS: i32 = 0x22;
const PAGE: usize = 4096;

/// At which end of its open pages a slice lies; there it touches the closed page.
#[derive(Clone, Copy, PartialEq, Debug)]
pub enum Side {
    Start,
    End,
}

/// A number in a cell, any of whose bits may be set: so whatever stands in memory is one.
pub trait Cell: Copy + PartialEq {}
impl Cell for u8 {}
impl Cell for u32 {}

/// Open pages between two closed ones.
pub struct Fence<T> {
    map: *mut c_void,
    bytes: usize,
    open: usize,
    cells: PhantomData<T>,
}

impl<T: Cell> Fence<T> {
    /// Room for at least so many cells.
    pub fn new(cells: usize) -> Fence<T> {
        let a_page = PAGE / size_of::<T>();
        let pages = cells.div_ceil(a_page).max(1);
        let bytes = (pages + 2) * PAGE;
        // SAFETY: a new private map that nobody else knows; its first and last page stay closed.
        let map = unsafe { mmap(null_mut(), bytes, CLOSED, PRIVATE_ANONYMOUS, -1, 0) };
        assert!(map as isize != -1, "no memory for a fence");
        let opened = unsafe { mprotect(map.byte_add(PAGE), pages * PAGE, READ_AND_WRITE) };
        assert_eq!(opened, 0, "the pages of a fence cannot be opened");
        Fence { map, bytes, open: pages * a_page, cells: PhantomData }
    }

    /// All cells between the closed pages.
    pub fn all(&mut self) -> &mut [T] {
        // SAFETY: the open pages belong to this fence alone, hold numbers of any value, and are borrowed with it.
        unsafe { &mut *slice_from_raw_parts_mut(self.map.byte_add(PAGE).cast(), self.open) }
    }

    /// Where a slice of this length lies.
    pub fn range(&self, len: usize, side: Side) -> std::ops::Range<usize> {
        match side {
            Side::Start => 0..len,
            Side::End => self.open - len..self.open,
        }
    }
}

impl<T> Drop for Fence<T> {
    fn drop(&mut self) {
        // SAFETY: the map was made by `new` with this size, and no slice of it outlives the fence.
        unsafe { munmap(self.map, self.bytes) };
    }
}

/// Cells that are lent either way.
pub enum Ground<T = u32> {
    Fenced(Fence<T>),
    Heap(Box<[T]>),
}

impl<T: Cell> Ground<T> {
    /// Reads the cell past one end of what it has, which must not go unnoticed.
    pub fn overstep(&mut self, side: Side) -> T {
        let all = match self {
            Ground::Fenced(fence) => fence.all(),
            Ground::Heap(piece) => piece,
        };
        let beyond = if side == Side::Start { all.as_ptr().wrapping_sub(1) } else { all.as_ptr_range().end };
        // SAFETY: none: this is the read that a closed page or memcheck must stop.
        unsafe { beyond.read_volatile() }
    }

    pub fn new(heap: bool, most: usize) -> Ground<T> {
        if heap { Ground::Heap(Box::from([])) } else { Ground::Fenced(Fence::new(most)) }
    }

    /// Fills everything within the fence, then the slice itself.
    pub fn fill(&mut self, cells: &[T], around: T, side: Side) {
        match self {
            Ground::Fenced(fence) => {
                let range = fence.range(cells.len(), side);
                fence.all().fill(around);
                fence.all()[range].copy_from_slice(cells);
            }
            Ground::Heap(piece) => *piece = cells.into(),
        }
    }

    pub fn lend(&mut self, len: usize, side: Side) -> &mut [T] {
        match self {
            Ground::Fenced(fence) => {
                let range = fence.range(len, side);
                &mut fence.all()[range]
            }
            Ground::Heap(piece) => &mut piece[..len],
        }
    }

    /// Do the cells beside the slice still hold what they were filled with?
    pub fn kept_around(&mut self, len: usize, around: T, side: Side) -> bool {
        match self {
            Ground::Fenced(fence) => {
                let range = fence.range(len, side);
                let all = fence.all();
                all[..range.start].iter().chain(&all[range.end..]).all(|&cell| cell == around)
            }
            Ground::Heap(_) => true,
        }
    }
}
