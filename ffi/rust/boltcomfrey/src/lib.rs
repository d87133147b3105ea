//! A versioned ordered map from byte strings to numbers, or to byte strings, over a library whose
//! every call is proved. This crate round the library is tested, and not proved.
//!
//! A snapshot is a map of its own: what changes in one is never seen in the other, though both
//! share the nodes that neither has changed.
//!
//! ```
//! # use boltcomfrey::{Refusal, VersionedMap};
//! let mut prices = VersionedMap::new();
//! prices.insert("tea", 300)?;
//! let yesterday = prices.snapshot()?;
//! prices.insert("tea", 350)?;
//! assert_eq!(yesterday.get("tea"), Some(300));
//! assert_eq!(prices.get("tea"), Some(350));
//! # Ok::<(), Refusal>(())
//! ```
//!
//! Proved is what the exports answer and leave, as `boltcomfrey.h` says it. Tested are this crate
//! round them, and that memory is refused only where there is none.
//!
//! Where memory lacks, a call that answers a `Result` answers [`Refusal::NoMemory`], be it that the
//! library is refused or a copy of a key, of a value or of a page. A call that answers none panics.
//! The library's nodes are of C's `malloc`: a `#[global_allocator]` neither serves, counts nor limits
//! them. Copies and pages are of Rust's allocator.
//!
//! A map and all that came from it stay on one thread, and maps that have nothing to do with each
//! other may be on several. An [`Unshared`] map goes to other threads, and several can read it. It runs on Linux on x86-64-v2, with Rust 1.85 or later.
#![warn(missing_docs)]
#![deny(unsafe_code)]

#[cfg(not(all(target_os = "linux", target_arch = "x86_64")))]
compile_error!("the proved library that this crate links is built for Linux on x86-64 alone");

mod both;
mod cursor;
mod entry;
mod error;
mod extract;
mod idioms;
mod iter;
mod key_range;
mod map;
#[allow(unsafe_code)]
mod memory;
#[allow(unsafe_code)]
mod raw;
mod saving;
#[allow(unsafe_code)]
mod sys;
mod unshared;
mod value;
mod walk;

pub use both::{Common, Diff};
pub use cursor::{Cursor, CursorMut};
pub use entry::{Entry, InsertError, OccupiedEntry, VacantEntry};
pub use error::{LoadError, Refusal};
pub use extract::ExtractIf;
pub use iter::{IntoIter, Iter, Keys, Lent, Range, Values};
pub use key_range::KeyRange;
pub use map::{Map, VersionedBytes, VersionedMap};
#[cfg(feature = "refusals")]
pub use sys::refusals;
pub use unshared::Unshared;
pub use value::{Given, Value};
