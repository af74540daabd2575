//! Links libgravitar.a of the folder that GRAVITAR_LIB names, which `tools/quick.sh --lib` makes.
use std::path::Path;

fn main() {
    println!("cargo:rerun-if-env-changed=GRAVITAR_LIB");
    let folder = std::env::var("GRAVITAR_LIB").expect("GRAVITAR_LIB names no folder");
    let archive = Path::new(&folder).join("libgravitar.a");
    assert!(archive.is_absolute(), "GRAVITAR_LIB is not absolute");
    assert!(archive.is_file(), "there is no {}", archive.display());
    println!("cargo:rerun-if-changed={}", archive.display());
    println!("cargo:rustc-link-search=native={folder}");
    println!("cargo:rustc-link-lib=static=gravitar");
}
