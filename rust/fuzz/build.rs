//! Links the archive that LINKINFO_ARCHIVE names, with the feature `archive`.
use std::path::Path;
use std::{env, fs};

fn main() {
    println!("cargo:rerun-if-env-changed=LINKINFO_ARCHIVE");
    println!("cargo:rerun-if-changed=build.rs");
    if env::var_os("CARGO_FEATURE_ARCHIVE").is_none() {
        return;
    }
    let archive = env::var("LINKINFO_ARCHIVE").expect("LINKINFO_ARCHIVE names the archive");
    let folder = env::var("OUT_DIR").expect("cargo sets OUT_DIR");
    fs::copy(&archive, Path::new(&folder).join("liblinkinfo_archive.a")).expect("it is there");
    println!("cargo:rerun-if-changed={archive}");
    println!("cargo:rustc-link-search=native={folder}");
    println!("cargo:rustc-link-lib=static=linkinfo_archive");
}
