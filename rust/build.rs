//! Finds libpowerlink.a: in POWERLINK_LIB_DIR, else in ../target/staticlib.
use std::env;
use std::path::{Path, PathBuf};

fn main() {
    println!("cargo::rerun-if-changed=build.rs");
    println!("cargo::rerun-if-env-changed=POWERLINK_LIB_DIR");
    let here = env::var_os("CARGO_MANIFEST_DIR").expect("cargo sets CARGO_MANIFEST_DIR");
    let folder = match env::var_os("POWERLINK_LIB_DIR") {
        // A relative path counts from this crate's folder.
        Some(folder) => Path::new(&here).join(folder),
        None => PathBuf::from(here).join("../target/staticlib"),
    };
    let archive = folder.join("libpowerlink.a");
    println!("cargo::rerun-if-changed={}", archive.display());
    if !archive.is_file() {
        println!(
            "cargo::error=there is no {}: run `tests/archive.sh` at the repository's root, \
             or name the folder that holds libpowerlink.a in POWERLINK_LIB_DIR",
            archive.display()
        );
        return;
    }
    println!("cargo::rustc-link-search=native={}", folder.display());
    println!("cargo::rustc-link-lib=static=powerlink");
}
