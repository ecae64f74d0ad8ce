//! Links libembed.a, from the folder CIBRADUC_LIBRARY or else from crates/embed/out of the repository.

use std::env;
use std::path::PathBuf;

fn main() {
    let folder = match env::var_os("CIBRADUC_LIBRARY") {
        Some(folder) => PathBuf::from(folder),
        None => {
            PathBuf::from(env::var_os("CARGO_MANIFEST_DIR").unwrap()).join("../crates/embed/out")
        }
    };
    println!("cargo:rustc-link-search=native={}", folder.display());
    println!("cargo:rustc-link-lib=static=embed");
    println!("cargo:rerun-if-env-changed=CIBRADUC_LIBRARY");
    println!(
        "cargo:rerun-if-changed={}",
        folder.join("libembed.a").display()
    );
    println!("cargo:rerun-if-changed=build.rs");
}
