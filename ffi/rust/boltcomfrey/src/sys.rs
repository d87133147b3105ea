//! The border to the proved library: its exports, as `ffi/generate` reads them off its sources, and
//! how it asks for memory.
#![allow(dead_code)] // what stands here is all that there is

use std::ffi::c_void;
use std::ptr::null_mut;

/// A tree as C holds it: null is the map without a key and number 0.
#[repr(C)]
pub struct RartTree {
    pub at: *mut u8,
}

/// The same of a map to byte strings.
#[repr(C)]
pub struct RartBytes {
    pub at: *mut u8,
}

/// Where the key of an entry ends among the bytes of its page, and its value.
#[repr(C)]
#[derive(Clone, Copy, Default)]
pub struct RartEntry {
    pub end: usize,
    pub value: u64,
}

/// The same of a map to byte strings: where its key ends, and where its value behind it.
#[repr(C)]
#[derive(Clone, Copy, Default)]
pub struct RartBytesEntry {
    pub key_end: usize,
    pub end: usize,
}

pub const DONE: u8 = 0;
pub const ABSENT: u8 = 1;
pub const LAST_NUMBER: u8 = 2;
pub const NO_MEMORY: u8 = 3;
pub const TOO_SMALL: u8 = 4;
pub const NO_ENTRIES: u8 = 5;
pub const TOO_LONG: u8 = 6;
pub const NOT_EMPTY: u8 = 7;
pub const DIFFERENT: u8 = 8;
pub const TRUNCATED: u8 = 9;
pub const UNSUPPORTED: u8 = 10;
pub const MALFORMED: u8 = 11;
pub const WRONG_SUM: u8 = 12;
pub const INCLUDED: u8 = 0;
pub const EXCLUDED: u8 = 1;
pub const UNBOUNDED: u8 = 2;
pub const LONGEST_KEY: usize = 1024;

#[rustfmt::skip] // (ffi/generate lays it out)
unsafe extern "C" {
    pub fn rart_snapshot(tree: *mut RartTree, copy: *mut RartTree) -> u8;
    pub fn rart_clone(tree: *mut RartTree, copy: *mut RartTree) -> u8;
    pub fn rart_new_at(tree: *mut RartTree, number: u64) -> u8;
    pub fn rart_longest_key(tree: *mut RartTree) -> usize;
    pub fn rart_set_longest_key(tree: *mut RartTree, longest: usize) -> u8;
    pub fn rart_version(tree: *mut RartTree) -> u64;
    pub fn rart_len(tree: *mut RartTree) -> usize;
    pub fn rart_is_empty(tree: *mut RartTree) -> bool;
    pub fn rart_get(tree: *mut RartTree, key: *const u8, key_len: usize, value: *mut u64) -> u8;
    pub fn rart_longest(
        tree: *mut RartTree,
        probe: *const u8,
        probe_len: usize,
        len: *mut usize,
        value: *mut u64,
    ) -> u8;
    pub fn rart_common(tree: *mut RartTree, other: *mut RartTree) -> usize;
    pub fn rart_seek(
        tree: *mut RartTree,
        from: *const u8,
        from_len: usize,
        room: *mut u8,
        room_len: usize,
        len: *mut usize,
        value: *mut u64,
    ) -> u8;
    pub fn rart_next(
        tree: *mut RartTree,
        after: *const u8,
        after_len: usize,
        room: *mut u8,
        room_len: usize,
        len: *mut usize,
        value: *mut u64,
    ) -> u8;
    pub fn rart_seek_back(
        tree: *mut RartTree,
        from: *const u8,
        from_len: usize,
        room: *mut u8,
        room_len: usize,
        len: *mut usize,
        value: *mut u64,
    ) -> u8;
    pub fn rart_prev(
        tree: *mut RartTree,
        before: *const u8,
        before_len: usize,
        room: *mut u8,
        room_len: usize,
        len: *mut usize,
        value: *mut u64,
    ) -> u8;
    pub fn rart_last(
        tree: *mut RartTree,
        room: *mut u8,
        room_len: usize,
        len: *mut usize,
        value: *mut u64,
    ) -> u8;
    pub fn rart_clear(tree: *mut RartTree);
    pub fn rart_insert(
        tree: *mut RartTree,
        key: *const u8,
        key_len: usize,
        value: u64,
        replaced: *mut u64,
    ) -> u8;
    pub fn rart_remove(tree: *mut RartTree, key: *const u8, key_len: usize, value: *mut u64) -> u8;
    pub fn rart_add(
        tree: *mut RartTree,
        key: *const u8,
        key_len: usize,
        value: u64,
        found: *mut u64,
    ) -> u8;
    pub fn rart_replace(
        tree: *mut RartTree,
        key: *const u8,
        key_len: usize,
        value: u64,
        replaced: *mut u64,
    ) -> u8;
    pub fn rart_page(
        tree: *mut RartTree,
        low: *const u8,
        low_len: usize,
        low_kind: u8,
        high: *const u8,
        high_len: usize,
        high_kind: u8,
        bytes: *mut u8,
        bytes_len: usize,
        entries: *mut RartEntry,
        entries_len: usize,
        count: *mut usize,
        needed: *mut usize,
    ) -> u8;
    pub fn rart_page_back(
        tree: *mut RartTree,
        low: *const u8,
        low_len: usize,
        low_kind: u8,
        high: *const u8,
        high_len: usize,
        high_kind: u8,
        bytes: *mut u8,
        bytes_len: usize,
        entries: *mut RartEntry,
        entries_len: usize,
        count: *mut usize,
        needed: *mut usize,
    ) -> u8;
    pub fn rart_bytes_snapshot(tree: *mut RartBytes, copy: *mut RartBytes) -> u8;
    pub fn rart_bytes_clone(tree: *mut RartBytes, copy: *mut RartBytes) -> u8;
    pub fn rart_bytes_new_at(tree: *mut RartBytes, number: u64) -> u8;
    pub fn rart_bytes_longest_key(tree: *mut RartBytes) -> usize;
    pub fn rart_bytes_set_longest_key(tree: *mut RartBytes, longest: usize) -> u8;
    pub fn rart_bytes_version(tree: *mut RartBytes) -> u64;
    pub fn rart_bytes_len(tree: *mut RartBytes) -> usize;
    pub fn rart_bytes_is_empty(tree: *mut RartBytes) -> bool;
    pub fn rart_bytes_get(
        tree: *mut RartBytes,
        key: *const u8,
        key_len: usize,
        into: *mut u8,
        into_len: usize,
        len: *mut usize,
    ) -> u8;
    pub fn rart_bytes_longest(
        tree: *mut RartBytes,
        probe: *const u8,
        probe_len: usize,
        key_len: *mut usize,
        into: *mut u8,
        into_len: usize,
        len: *mut usize,
    ) -> u8;
    pub fn rart_bytes_common(tree: *mut RartBytes, other: *mut RartBytes) -> usize;
    pub fn rart_bytes_seek(
        tree: *mut RartBytes,
        from: *const u8,
        from_len: usize,
        room: *mut u8,
        room_len: usize,
        key_len: *mut usize,
        into: *mut u8,
        into_len: usize,
        len: *mut usize,
    ) -> u8;
    pub fn rart_bytes_next(
        tree: *mut RartBytes,
        after: *const u8,
        after_len: usize,
        room: *mut u8,
        room_len: usize,
        key_len: *mut usize,
        into: *mut u8,
        into_len: usize,
        len: *mut usize,
    ) -> u8;
    pub fn rart_bytes_seek_back(
        tree: *mut RartBytes,
        from: *const u8,
        from_len: usize,
        room: *mut u8,
        room_len: usize,
        key_len: *mut usize,
        into: *mut u8,
        into_len: usize,
        len: *mut usize,
    ) -> u8;
    pub fn rart_bytes_prev(
        tree: *mut RartBytes,
        before: *const u8,
        before_len: usize,
        room: *mut u8,
        room_len: usize,
        key_len: *mut usize,
        into: *mut u8,
        into_len: usize,
        len: *mut usize,
    ) -> u8;
    pub fn rart_bytes_last(
        tree: *mut RartBytes,
        room: *mut u8,
        room_len: usize,
        key_len: *mut usize,
        into: *mut u8,
        into_len: usize,
        len: *mut usize,
    ) -> u8;
    pub fn rart_bytes_clear(tree: *mut RartBytes);
    pub fn rart_bytes_insert(
        tree: *mut RartBytes,
        key: *const u8,
        key_len: usize,
        value: *const u8,
        value_len: usize,
    ) -> u8;
    pub fn rart_bytes_remove(tree: *mut RartBytes, key: *const u8, key_len: usize) -> u8;
    pub fn rart_equals(tree: *mut RartTree, other: *mut RartTree) -> u8;
    pub fn rart_difference(tree: *mut RartTree, other: *mut RartTree, part: *mut RartTree) -> u8;
    pub fn rart_intersection(tree: *mut RartTree, other: *mut RartTree, part: *mut RartTree) -> u8;
    pub fn rart_bytes_add(
        tree: *mut RartBytes,
        key: *const u8,
        key_len: usize,
        value: *const u8,
        value_len: usize,
    ) -> u8;
    pub fn rart_bytes_replace(
        tree: *mut RartBytes,
        key: *const u8,
        key_len: usize,
        value: *const u8,
        value_len: usize,
    ) -> u8;
    pub fn rart_bytes_equals(tree: *mut RartBytes, other: *mut RartBytes) -> u8;
    pub fn rart_bytes_difference(
        tree: *mut RartBytes,
        other: *mut RartBytes,
        part: *mut RartBytes,
    ) -> u8;
    pub fn rart_bytes_intersection(
        tree: *mut RartBytes,
        other: *mut RartBytes,
        part: *mut RartBytes,
    ) -> u8;
    pub fn rart_bytes_page(
        tree: *mut RartBytes,
        low: *const u8,
        low_len: usize,
        low_kind: u8,
        high: *const u8,
        high_len: usize,
        high_kind: u8,
        bytes: *mut u8,
        bytes_len: usize,
        entries: *mut RartBytesEntry,
        entries_len: usize,
        count: *mut usize,
        key_len: *mut usize,
        len: *mut usize,
    ) -> u8;
    pub fn rart_bytes_page_back(
        tree: *mut RartBytes,
        low: *const u8,
        low_len: usize,
        low_kind: u8,
        high: *const u8,
        high_len: usize,
        high_kind: u8,
        bytes: *mut u8,
        bytes_len: usize,
        entries: *mut RartBytesEntry,
        entries_len: usize,
        count: *mut usize,
        key_len: *mut usize,
        len: *mut usize,
    ) -> u8;
    pub fn rart_remove_prefix(
        tree: *mut RartTree,
        prefix: *const u8,
        prefix_len: usize,
        removed: *mut usize,
    ) -> u8;
    pub fn rart_prefix_snapshot(
        tree: *mut RartTree,
        prefix: *const u8,
        prefix_len: usize,
        part: *mut RartTree,
    ) -> u8;
    pub fn rart_restore_prefix(
        tree: *mut RartTree,
        prefix: *const u8,
        prefix_len: usize,
        from: *mut RartTree,
    ) -> u8;
    pub fn rart_bytes_remove_prefix(
        tree: *mut RartBytes,
        prefix: *const u8,
        prefix_len: usize,
        removed: *mut usize,
    ) -> u8;
    pub fn rart_bytes_prefix_snapshot(
        tree: *mut RartBytes,
        prefix: *const u8,
        prefix_len: usize,
        part: *mut RartBytes,
    ) -> u8;
    pub fn rart_bytes_restore_prefix(
        tree: *mut RartBytes,
        prefix: *const u8,
        prefix_len: usize,
        from: *mut RartBytes,
    ) -> u8;
    pub fn rart_saved_len(tree: *mut RartTree, len: *mut usize) -> u8;
    pub fn rart_save(tree: *mut RartTree, into: *mut u8, into_len: usize, len: *mut usize) -> u8;
    pub fn rart_load(
        tree: *mut RartTree,
        bytes: *const u8,
        bytes_len: usize,
        offset: *mut usize,
    ) -> u8;
    pub fn rart_bytes_saved_len(tree: *mut RartBytes, len: *mut usize) -> u8;
    pub fn rart_bytes_save(
        tree: *mut RartBytes,
        into: *mut u8,
        into_len: usize,
        len: *mut usize,
    ) -> u8;
    pub fn rart_bytes_load(
        tree: *mut RartBytes,
        bytes: *const u8,
        bytes_len: usize,
        offset: *mut usize,
    ) -> u8;
}

/// Whether memory is given, and where.
#[repr(C)]
pub struct Block {
    is_given: usize,
    at: *mut c_void,
}

impl Block {
    // How the C library aligns what it gives. (The library never asks for more.)
    const ALIGN: usize = 16;

    const REFUSED: Block = Block {
        is_given: 0,
        at: null_mut(),
    };

    fn of(at: *mut c_void) -> Block {
        Block {
            is_given: usize::from(!at.is_null()),
            at,
        }
    }
}

// The C library's, as in `ffi/c/heap.c`.
unsafe extern "C" {
    fn malloc(size: usize) -> *mut c_void;
    fn realloc(at: *mut c_void, size: usize) -> *mut c_void;
    fn free(at: *mut c_void);
}

#[unsafe(no_mangle)]
extern "C" fn rattle_alloc(size: usize, align: usize) -> Block {
    if align > Block::ALIGN || is_refused(Request::New) {
        return Block::REFUSED;
    }
    // SAFETY: any number of bytes may be asked for.
    let block = Block::of(unsafe { malloc(if size == 0 { align } else { size }) });
    count_blocks(block.is_given as i64);
    block
}

#[unsafe(no_mangle)]
unsafe extern "C" fn rattle_realloc(
    at: *mut c_void,
    _kept: usize,
    size: usize,
    align: usize,
) -> Block {
    if align > Block::ALIGN || is_refused(Request::Longer) {
        return Block::REFUSED;
    }
    // SAFETY: the library got this block here, and has not freed it.
    Block::of(unsafe { realloc(at, if size == 0 { align } else { size }) })
}

#[unsafe(no_mangle)]
unsafe extern "C" fn rattle_dealloc(at: *mut c_void) {
    // SAFETY: the library got this block here, and uses it no more.
    unsafe { free(at) }
    count_blocks(-1);
}

/// What is asked for: a new block, or a longer one in place of one that is there.
enum Request {
    New,
    Longer,
}

#[cfg(not(feature = "refusals"))]
fn is_refused(_request: Request) -> bool {
    false
}

#[cfg(feature = "refusals")]
fn is_refused(request: Request) -> bool {
    match request {
        Request::New => refusals::NEW.with(refusals::Requests::next),
        Request::Longer => refusals::LONGER.with(refusals::Requests::next),
    }
}

#[cfg(not(feature = "refusals"))]
fn count_blocks(_more: i64) {}

#[cfg(feature = "refusals")]
fn count_blocks(more: i64) {
    refusals::count_blocks(more);
}

/// For tests: some requests for memory are refused, and the blocks that are given are counted.
#[cfg(feature = "refusals")]
pub mod refusals {
    use std::cell::Cell;

    // Longer blocks are seldom asked for, so more of them are refused.
    const ONE_LONGER_IN: u64 = 4;

    /// The requests of a kind: one in how many is refused, how many were made, how many refused.
    pub(super) struct Requests {
        one_in: Cell<u64>,
        made: Cell<u64>,
        refused: Cell<u64>,
    }

    impl Requests {
        const fn new() -> Requests {
            Requests {
                one_in: Cell::new(0),
                made: Cell::new(0),
                refused: Cell::new(0),
            }
        }

        /// Whether the next request is refused.
        pub(super) fn next(&self) -> bool {
            self.made.set(self.made.get() + 1);
            let one_in = self.one_in.get();
            let is_refused = one_in != 0 && self.made.get() % one_in == 0;
            self.refused.set(self.refused.get() + u64::from(is_refused));
            is_refused
        }
    }

    thread_local! {
        pub(super) static NEW: Requests = const { Requests::new() };
        pub(super) static LONGER: Requests = const { Requests::new() };
        static BLOCKS: Cell<i64> = const { Cell::new(0) };
    }

    /// Refuses one new block in `one_in` from here on, and some that are to be longer; none where
    /// the number is 0.
    pub fn set(one_in: u64) {
        NEW.with(|it| it.one_in.set(one_in));
        LONGER.with(|it| it.one_in.set(one_in.min(ONE_LONGER_IN)));
    }

    /// How many requests of this thread were refused.
    pub fn refused() -> u64 {
        NEW.with(|it| it.refused.get()) + longer_refused()
    }

    /// How many of them were to lengthen a block.
    pub fn longer_refused() -> u64 {
        LONGER.with(|it| it.refused.get())
    }

    /// How many blocks this thread's maps hold.
    pub fn blocks() -> i64 {
        BLOCKS.get()
    }

    pub(super) fn count_blocks(more: i64) {
        BLOCKS.set(BLOCKS.get() + more);
    }
}
