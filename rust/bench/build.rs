//! Links libproducts.a, which stands beside libace.a.

use std::env;
use std::path::PathBuf;

fn main() {
    println!("cargo::rerun-if-changed=build.rs");
    let Some(folder) = env::var_os("DEP_ACE_FOLDER").map(PathBuf::from) else { return };
    println!("cargo::rerun-if-changed={}", folder.display());
    let place = folder.join("libproducts.a");
    if !place.exists() {
        let place = place.display();
        println!("cargo::error={place} is missing: `tools/archive products` writes it");
        return;
    }
    println!("cargo::rustc-link-search=native={}", folder.display());
    println!("cargo::rustc-link-lib=static=products");
}
