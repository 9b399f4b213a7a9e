//! Links libace.a, which `tools/archive ace` writes to target/staticlib; ACE_LIB names another
//! folder, a relative one against the repository's root.

use std::path::{Path, PathBuf};
use std::{env, fs};

fn main() {
    println!("cargo::rerun-if-changed=build.rs");
    println!("cargo::rerun-if-env-changed=ACE_LIB");
    let manifest = PathBuf::from(env::var("CARGO_MANIFEST_DIR").unwrap());
    let root = manifest.parent().and_then(Path::parent).unwrap();
    let named = env::var("ACE_LIB").ok().filter(|name| !name.is_empty());
    let named = named.as_deref().unwrap_or("target/staticlib");
    let folder = root.join(named);
    // The whole folder: an archive that is moved into it may be older than the last build.
    println!("cargo::rerun-if-changed={}", folder.display());
    let (place, out) = (folder.join("libace.a"), PathBuf::from(env::var("OUT_DIR").unwrap()));
    if let Err(error) = fs::copy(&place, out.join("libace.a")) {
        println!(
            "cargo::error={}: {error}. `tools/archive ace`, run at the repository's root, writes \
             target/staticlib/libace.a; ACE_LIB names the folder of another",
            place.display()
        );
        return;
    }
    println!("cargo::rustc-env=ACE_ARCHIVE={named}/libace.a");
    println!("cargo::rustc-env=ACE_PLACE={}", place.display());
    println!("cargo::rustc-link-search=native={}", out.display());
    println!("cargo::rustc-link-lib=static=ace");
    println!("cargo::metadata=folder={}", folder.display());
}
