//! Links libmezburiko.a, from the folder that MEZBURIKO_LIB_DIR names or else from where `make library` puts it.
use std::env;
use std::path::{Path, PathBuf};

fn main() {
    println!("cargo::rerun-if-changed=build.rs");
    println!("cargo::rerun-if-env-changed=MEZBURIKO_LIB_DIR");
    let folder = match env::var_os("MEZBURIKO_LIB_DIR") {
        Some(folder) => PathBuf::from(folder),
        None => {
            let manifest = env::var_os("CARGO_MANIFEST_DIR").expect("cargo sets it");
            Path::new(&manifest).join("../../target/staticlib")
        }
    };
    let library = folder.join("libmezburiko.a");
    println!("cargo::rerun-if-changed={}", library.display());
    if !library.is_file() {
        println!(
            "cargo::error=there is no {}: run `make library`, or name the library's folder in MEZBURIKO_LIB_DIR",
            library.display()
        );
        return;
    }
    println!("cargo::rustc-link-search=native={}", folder.display());
    println!("cargo::rustc-link-lib=static=mezburiko");
}
