//! A table that one thread changes and others read without a lock: it is published with each batch
//! of changes, and none of its nodes is copied. There are two tables. The one that no reader has any
//! more gets the batch before and this one, and takes the place of the other.
use boltcomfrey::{Refusal, Unshared};
use std::sync::Arc;
use std::thread;

/// A route, and where it leads now, if anywhere.
type Change = (Vec<u8>, Option<u64>);

#[derive(Default)]
struct Routes {
    shown: Arc<Unshared<u64>>,
    spare: Arc<Unshared<u64>>,
    /// The batch that the spare one lacks.
    before: Vec<Change>,
}

impl Routes {
    /// Publishes a batch, or tells that a reader still has the table before: then the batch waits, or
    /// is published on an `unshare` of it. Where memory is refused, the same batch can be tried again,
    /// since each change may be made twice.
    fn publish(&mut self, batch: Vec<Change>) -> Result<bool, Refusal> {
        let Some(spare) = Arc::get_mut(&mut self.spare) else {
            return Ok(false);
        };
        for (route, hop) in self.before.iter().chain(&batch) {
            let _was_there = match hop {
                Some(hop) => spare.set(route, *hop)?,
                None => spare.delete(route)?,
            };
        }
        std::mem::swap(&mut self.shown, &mut self.spare);
        self.before = batch;
        Ok(true)
    }
}

fn main() -> Result<(), Refusal> {
    let mut routes = Routes::default();
    let batches = [
        vec![(vec![10], Some(1)), (vec![10, 0], Some(2))],
        vec![(vec![10, 0], Some(5)), (vec![10, 0, 7], Some(3))],
        vec![(vec![10, 0], None)],
    ];
    for batch in batches {
        let is_published = routes.publish(batch)?;
        assert!(is_published, "a reader still has the table before");
        let readers = [[10, 0, 7, 9], [10, 0, 8, 9]].map(|address| {
            let table = Arc::clone(&routes.shown);
            thread::spawn(move || (address, table.longest_prefix(address)))
        });
        for reader in readers {
            let (address, found) = reader.join().expect("a reader ends");
            println!("{address:?}: {found:?}");
        }
    }
    Ok(())
}
