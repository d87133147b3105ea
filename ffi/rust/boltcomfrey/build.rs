//! Links the proved library: the one in the folder that RART_C_DIR names, else the crate's `lib/`.
use std::env;
use std::path::{Path, PathBuf};

fn main() {
    println!("cargo::rerun-if-env-changed=RART_C_DIR");
    let own = Path::new(&env::var("CARGO_MANIFEST_DIR").unwrap()).join("lib");
    let folder = env::var_os("RART_C_DIR").map_or(own, PathBuf::from);
    let archive = folder.join("librart_c.a");
    if !archive.is_file() {
        // (without it `cargo check` and `cargo doc` work, and nothing can be linked)
        let made = "run `rt lib` in crates/rart_c, and set RART_C_DIR to its folder `out`";
        println!("cargo::warning=there is no {}: {made}", archive.display());
    }
    println!("cargo::rerun-if-changed={}", archive.display());
    println!("cargo::rustc-link-search=native={}", folder.display());
    println!("cargo::rustc-link-lib=static=rart_c");
}
