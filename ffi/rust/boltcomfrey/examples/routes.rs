//! A routing table: a route is tried, and rolled back.
use boltcomfrey::{Refusal, VersionedMap};

/// Says where the longest route leads that begins the address 10.1.2.3.
fn show(routes: &VersionedMap, title: &str) {
    if let Some((_length, hop)) = routes.longest_prefix([10, 1, 2, 3]) {
        println!("{title}: 10.1.2.3 goes to {hop}");
    }
}

fn main() -> Result<(), Refusal> {
    let mut routes = VersionedMap::new();
    routes.insert([10], 1)?;
    routes.insert([10, 1], 2)?;
    let before = routes.snapshot()?;

    routes.insert([10, 1], 7)?;
    show(&routes, "on trial");
    show(&before, "as before");

    routes = before;
    show(&routes, "rolled back");
    Ok(())
}
