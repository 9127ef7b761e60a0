//! Links the archive that `rt lib` writes in crates/exports: from its folder out/, or from the folder DINKOLAFE_ARCHIVE.
use std::env;
use std::path::PathBuf;

fn main() {
    println!("cargo:rerun-if-env-changed=DINKOLAFE_ARCHIVE");
    let here = PathBuf::from(env::var_os("CARGO_MANIFEST_DIR").expect("cargo sets it"));
    let folder =
        env::var_os("DINKOLAFE_ARCHIVE").map_or(here.join("../crates/exports/out"), PathBuf::from);
    println!(
        "cargo:rerun-if-changed={}",
        folder.join("libexports.a").display()
    );
    println!("cargo:rustc-link-search=native={}", folder.display());
    println!("cargo:rustc-link-lib=static=exports");
}
