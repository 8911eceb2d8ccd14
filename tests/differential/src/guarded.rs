//! Tables lent to a call. Each has pages of its own between two zones without
//! access, so that a stray read or write ends the process.

#![allow(unsafe_code)]

use std::ffi::c_void;
use std::fmt::Debug;
use std::marker::PhantomData;
use std::{ptr, slice};

const PAGE: usize = 4_096;

/// Bytes of each zone; it takes addresses, but no memory.
const ZONE: usize = 1 << 37;

/// Fills what a table leaves of its pages.
const CANARY: u8 = 0xA5;

const NO_ACCESS: i32 = 0;
const READ: i32 = 1;
const READ_AND_WRITE: i32 = 3;
const PRIVATE_ANONYMOUS: i32 = 0x22;
const SET_DUMPABLE: i32 = 4;

unsafe extern "C" {
    fn mmap(
        at: *mut c_void,
        bytes: usize,
        access: i32,
        flags: i32,
        file: i32,
        offset: i64,
    ) -> *mut c_void;
    fn mprotect(at: *mut c_void, bytes: usize, access: i32) -> i32;
    fn munmap(at: *mut c_void, bytes: usize) -> i32;
    fn prctl(option: i32, second: u64, third: u64, fourth: u64, fifth: u64) -> i32;
}

/// Numbers for which any bytes stand.
pub trait Entry: Copy + Debug + PartialEq + From<u8> {}
impl Entry for i32 {}
impl Entry for u32 {}
impl Entry for u64 {}
impl Entry for u8 {}

/// The zone that a table touches.
#[derive(Clone, Copy, Debug, PartialEq, Eq)]
pub enum Side {
    /// The table begins where the zone before it ends.
    Before,
    /// The table ends where the zone after it begins.
    After,
}

/// A table between two zones.
#[derive(Debug)]
pub struct Guarded<T: Entry> {
    /// The zone before the pages.
    zone: *mut u8,
    /// Bytes of the pages.
    pages: usize,
    /// Bytes before the table in its pages.
    before: usize,
    entries: usize,
    /// The length that a call is told.
    told: usize,
    entry: PhantomData<T>,
}

impl<T: Entry> Guarded<T> {
    /// A copy of the table that a call may read and write.
    pub fn new(table: &[T], side: Side) -> Self {
        let bytes = size_of_val(table);
        let pages = bytes.next_multiple_of(PAGE);
        let guarded = Self {
            zone: reserve(ZONE + pages + ZONE),
            pages,
            before: if side == Side::Before {
                0
            } else {
                pages - bytes
            },
            entries: table.len(),
            told: table.len(),
            entry: PhantomData,
        };
        guarded.allow(READ_AND_WRITE);
        // SAFETY: the pages are open and hold the table.
        unsafe {
            ptr::write_bytes(guarded.first_page(), CANARY, pages);
            ptr::copy_nonoverlapping(table.as_ptr(), guarded.pointer(), table.len());
        }
        guarded
    }

    /// A copy of the table that a call may only read.
    pub fn read_only(table: &[T], side: Side) -> Self {
        let guarded = Self::new(table, side);
        guarded.allow(READ);
        guarded
    }

    /// Tells calls of a longer table. What is told beyond the pages lies in
    /// the zone after them.
    pub fn claim(&mut self, length: usize) {
        assert!(self.before == 0 && length <= ZONE / size_of::<T>());
        self.told = length;
    }

    pub fn pointer(&self) -> *mut T {
        self.first_page().wrapping_add(self.before).cast()
    }

    pub fn length(&self) -> usize {
        self.told
    }

    pub fn table(&self) -> &[T] {
        // SAFETY: the table lies in its pages, which are open.
        unsafe { slice::from_raw_parts(self.pointer(), self.entries) }
    }

    /// The first entry of the table, or byte of the rest of its pages, that
    /// is not as expected.
    pub fn difference(&self, name: &str, expected: &[T]) -> Option<String> {
        let table = self.table();
        if table != expected {
            let at = (0..table.len()).find(|&at| table[at] != expected[at])?;
            let (given, due) = (table[at], expected[at]);
            return Some(format!("{name}[{at}] is {given:?}, not {due:?}"));
        }
        // SAFETY: the pages are open.
        let pages = unsafe { slice::from_raw_parts(self.first_page(), self.pages) };
        let (front, rest) = pages.split_at(self.before);
        let back = &rest[size_of_val(table)..];
        let found = [front, back]
            .concat()
            .into_iter()
            .find(|&byte| byte != CANARY)?;
        Some(format!("a byte by {name} became {found}"))
    }

    /// Reads one entry, or makes it 1, anywhere from the table's first; if
    /// this ends the process, no core is left.
    pub fn touch(&self, entry: isize, write: bool) {
        let at = self.pointer().wrapping_offset(entry);
        // SAFETY: none; it shows that a stray access ends the process.
        unsafe {
            prctl(SET_DUMPABLE, 0, 0, 0, 0);
            if write {
                at.write_volatile(T::from(1));
            } else {
                at.read_volatile();
            }
        }
    }

    fn first_page(&self) -> *mut u8 {
        self.zone.wrapping_add(ZONE)
    }

    fn allow(&self, access: i32) {
        // SAFETY: these pages are the table's own.
        let failed = unsafe { mprotect(self.first_page().cast(), self.pages, access) };
        assert_eq!(failed, 0, "no access to {} bytes", self.pages);
    }
}

impl<T: Entry> Drop for Guarded<T> {
    fn drop(&mut self) {
        // SAFETY: the table's own pages and zones, which no one uses any more.
        unsafe { munmap(self.zone.cast(), ZONE + self.pages + ZONE) };
    }
}

/// Addresses without access.
fn reserve(bytes: usize) -> *mut u8 {
    // SAFETY: new addresses, which no one uses yet.
    let at = unsafe { mmap(ptr::null_mut(), bytes, NO_ACCESS, PRIVATE_ANONYMOUS, -1, 0) };
    assert_ne!(at.addr(), usize::MAX, "no addresses for {bytes} bytes");
    at.cast()
}
