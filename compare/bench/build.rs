//! Links the static libraries of the features that are on, and has the tables of document 01 printed.
use std::env;
use std::fs;
use std::path::Path;
use std::process::Command;

fn main() {
    let manifest = env::var("CARGO_MANIFEST_DIR").expect("cargo sets it");
    let root = Path::new(&manifest).join("../..");
    write_tables(&root.join("tools/mezburiko/tables.py"));
    let libraries = root.join("target/staticlib");
    for (feature, name) in [("FOLDING", "mezburiko"), ("STAGES", "stages")] {
        if env::var_os(format!("CARGO_FEATURE_{feature}")).is_some() {
            link(&libraries, name);
        }
    }
    println!("cargo::rerun-if-changed=build.rs");
}

/// Links the library of a crate: the static one that rt makes, or, for a folder to try in place of the proved one, a
/// shared one in the folder that WRONG_FOLDER names.
fn link(libraries: &Path, name: &str) {
    println!("cargo::rerun-if-env-changed=WRONG_FOLDER");
    if let Ok(wrong) = env::var("WRONG_FOLDER") {
        println!("cargo::rustc-link-search=native={wrong}");
        println!("cargo::rustc-link-lib=dylib={name}");
        return;
    }
    println!("cargo::rustc-link-search=native={}", libraries.display());
    println!("cargo::rustc-link-lib=static={name}");
    let library = libraries.join(format!("lib{name}.a"));
    println!("cargo::rerun-if-changed={}", library.display());
}

fn write_tables(program: &Path) {
    let printed = Command::new("python3")
        .arg(program)
        .arg("--rust")
        .output()
        .expect("python3 runs");
    assert!(
        printed.status.success(),
        "{}",
        String::from_utf8_lossy(&printed.stderr)
    );
    let out = Path::new(&env::var("OUT_DIR").expect("cargo sets it")).join("tables.rs");
    fs::write(out, printed.stdout).expect("the tables are written");
    println!("cargo::rerun-if-changed={}", program.display());
}
