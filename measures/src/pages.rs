//! A walk by the library's own pages, whose keys are read where a call wrote them. (The iterators of
//! the Rust crate copy each key out of its page.)
use crate::map::{Tally, add_lent};
use std::ptr::null_mut;

const EXCLUDED: u8 = 1;
const UNBOUNDED: u8 = 2;

/// As the library holds a tree: a struct of one pointer.
type Handle = *mut u8;

#[repr(C)]
#[derive(Clone, Copy, Default)]
struct Entry {
    end: usize,
    value: u64,
}

// As ffi/boltcomfrey.h has them.
unsafe extern "C" {
    fn rart_clear(tree: *mut Handle);
    fn rart_insert(tree: *mut Handle, at: *const u8, len: usize, value: u64, old: *mut u64) -> u8;
    fn rart_page(
        tree: *mut Handle,
        low: *const u8,
        low_len: usize,
        low_kind: u8,
        high: *const u8,
        high_len: usize,
        high_kind: u8,
        bytes: *mut u8,
        bytes_len: usize,
        entries: *mut Entry,
        entries_len: usize,
        count: *mut usize,
        needed: *mut usize,
    ) -> u8;
}

/// A tree whose keys have at most 16 bytes, and room for a page of it.
pub struct Pages {
    tree: Handle,
    bytes: [u8; 1024],
    entries: [Entry; 64],
}

// What the calls rely on: the tree is null or as a call left it, and is copied nowhere; what else
// they are handed are slices and numbers of which no two overlap.
impl Pages {
    pub fn of(pairs: impl Iterator<Item = (Vec<u8>, u64)>) -> Pages {
        let mut tree = null_mut();
        for (key, value) in pairs {
            // SAFETY: as above.
            unsafe { rart_insert(&mut tree, key.as_ptr(), key.len(), value, &mut 0) };
        }
        Pages {
            tree,
            bytes: [0; 1024],
            entries: [Entry::default(); 64],
        }
    }

    /// Writes the first page behind a bound. Gives how many pairs it has.
    fn turn(&mut self, low: &[u8], kind: u8) -> usize {
        let (mut count, bytes, entries) = (0, &mut self.bytes, &mut self.entries);
        // SAFETY: as above.
        unsafe {
            rart_page(
                &mut self.tree,
                low.as_ptr(),
                low.len(),
                kind,
                [].as_ptr(),
                0,
                UNBOUNDED,
                bytes.as_mut_ptr(),
                bytes.len(),
                entries.as_mut_ptr(),
                entries.len(),
                &mut count,
                &mut 0,
            );
        }
        count
    }

    pub fn walk(&mut self) -> Tally {
        let (mut tally, mut low, mut kind) = ((0, 0), Vec::new(), UNBOUNDED);
        loop {
            let count = self.turn(&low, kind);
            let (mut start, mut end) = (0, 0);
            for entry in &self.entries[..count] {
                (start, end) = (end, entry.end);
                tally = add_lent(tally, end - start, entry.value);
            }
            if count == 0 {
                return tally;
            }
            (low, kind) = (self.bytes[start..end].to_vec(), EXCLUDED);
        }
    }
}

impl Drop for Pages {
    fn drop(&mut self) {
        // SAFETY: as above.
        unsafe { rart_clear(&mut self.tree) }
    }
}
