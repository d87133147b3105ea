//! Vectors that are refused where memory lacks: what else makes or lengthens one ends the process.
use crate::error::Refusal;
use std::alloc::{Layout, alloc};

/// A copy.
#[inline]
pub fn copied(bytes: &[u8]) -> Result<Vec<u8>, Refusal> {
    if bytes.is_empty() {
        return Ok(Vec::new());
    }
    // (by `try_reserve_exact` a key of a walk takes some five nanoseconds more)
    // SAFETY: the layout has a byte.
    let at = unsafe { alloc(Layout::for_value(bytes)) };
    if at.is_null() {
        return Err(Refusal::NoMemory);
    }
    let len = bytes.len();
    // SAFETY: the block is new and has so many bytes. Rust's allocator gave it, by the layout of a
    // vector with room for so many; they are written before it is one.
    unsafe {
        at.copy_from_nonoverlapping(bytes.as_ptr(), len);
        Ok(Vec::from_raw_parts(at, len, len))
    }
}

/// Lengthens a vector to so many. One that is longer stays as it is, and so does one that is refused.
#[inline]
pub fn lengthen<T: Clone + Default>(vector: &mut Vec<T>, len: usize) -> Result<(), Refusal> {
    if let Some(more) = len.checked_sub(vector.len()) {
        vector.try_reserve(more)?;
        vector.resize(len, T::default());
    }
    Ok(())
}

/// Puts one more at the end.
pub fn push<T>(vector: &mut Vec<T>, it: T) -> Result<(), Refusal> {
    vector.try_reserve(1)?;
    vector.push(it);
    Ok(())
}
