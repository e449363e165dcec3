//! With the feature `proved`: links the proved check, a static library whose path is in PROVED_LIB.

use std::env;
use std::path::PathBuf;

fn main() {
    println!("cargo:rerun-if-env-changed=PROVED_LIB");
    if env::var_os("CARGO_FEATURE_PROVED").is_some() {
        link();
    }
}

fn link() {
    let path = PathBuf::from(env::var_os("PROVED_LIB").expect("PROVED_LIB: the path of lib*.a"));
    let path = path.canonicalize().expect("PROVED_LIB: there is no such file");
    let name = path.file_stem().and_then(|stem| stem.to_str()?.strip_prefix("lib"));
    println!("cargo:rerun-if-changed={}", path.display());
    println!("cargo:rustc-link-search=native={}", path.parent().expect("a folder").display());
    println!("cargo:rustc-link-lib=static={}", name.expect("PROVED_LIB: lib*.a"));
}
