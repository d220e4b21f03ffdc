//! Links librigtemple.a from the folder that ./library makes: the one that RIGTEMPLE_FOLDER names,
//! or target/library of the tree that this crate stands in.

use std::env;
use std::path::PathBuf;

fn main() {
    let here = PathBuf::from(env::var_os("CARGO_MANIFEST_DIR").expect("cargo says where it is"));
    let folder = match env::var_os("RIGTEMPLE_FOLDER") {
        Some(named) => PathBuf::from(named),
        None => here.join("../../target/library"),
    };
    let archive = folder.join("librigtemple.a");
    assert!(
        archive.is_file(),
        "there is no {}: make it with ./library",
        archive.display()
    );
    println!("cargo:rustc-link-search=native={}", folder.display());
    println!("cargo:rustc-link-lib=static=rigtemple");
    println!("cargo:rerun-if-env-changed=RIGTEMPLE_FOLDER");
    println!("cargo:rerun-if-changed={}", archive.display());
}
