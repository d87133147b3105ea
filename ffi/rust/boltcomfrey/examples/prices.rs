//! A price list with an undo: each change keeps the list before it.
use boltcomfrey::{Refusal, VersionedMap};

#[derive(Default)]
struct Prices {
    now: VersionedMap,
    before: Vec<VersionedMap>,
}

impl Prices {
    /// Sets a price. Refused, the list and its history are as before.
    fn set(&mut self, name: &str, price: u64) -> Result<(), Refusal> {
        let before = self.now.try_clone()?;
        self.now.insert(name, price)?;
        self.before.push(before);
        Ok(())
    }

    /// Takes the last step back.
    fn undo(&mut self) {
        if let Some(before) = self.before.pop() {
            self.now = before;
        }
    }

    /// Shows the prices of names that a prefix begins.
    fn show_under(&self, prefix: &str) {
        for (name, price) in self.now.prefix(prefix) {
            println!("{} is {price}", name.escape_ascii());
        }
    }
}

fn main() -> Result<(), Refusal> {
    let mut prices = Prices::default();
    prices.set("tea", 300)?;
    prices.set("milk", 100)?;
    prices.show_under("");
    prices.undo();
    prices.show_under("t");
    prices.undo();
    prices.show_under("t");
    Ok(())
}
