//! Tells the linker where the library is.

use std::env;
use std::path::{Path, PathBuf};

fn main() {
    println!("cargo:rerun-if-env-changed=VIRGONTEY_LIBRARY");
    if env::var_os("CARGO_FEATURE_LIBRARY").is_none() {
        return;
    }
    let library = match env::var_os("VIRGONTEY_LIBRARY") {
        Some(path) => PathBuf::from(path),
        None => Path::new(env!("CARGO_MANIFEST_DIR")).join("../../crates/tag/out/libtag.a"),
    };
    println!("cargo:rerun-if-changed={}", library.display());
    let Ok(library) = library.canonicalize() else {
        panic!(
            "{} is not there: build it with `rt lib` in crates/tag",
            library.display()
        );
    };
    let folder = library.parent().expect("a file lies in a folder");
    let name = library.file_stem().and_then(|stem| stem.to_str());
    let name = name.and_then(|stem| stem.strip_prefix("lib"));
    println!("cargo:rustc-link-search=native={}", folder.display());
    println!(
        "cargo:rustc-link-lib=static:-bundle={}",
        name.expect("a library's name begins with lib")
    );
}
