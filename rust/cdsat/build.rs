//! Tells the linker where the static library is: in the folder that
//! `CDSAT_LIB_DIR` names, or else where the repository builds it.

use std::env;
use std::path::PathBuf;

fn main() {
    println!("cargo::rerun-if-env-changed=CDSAT_LIB_DIR");
    let folder = match env::var_os("CDSAT_LIB_DIR") {
        Some(folder) => PathBuf::from(folder),
        None => PathBuf::from(env::var_os("CARGO_MANIFEST_DIR").expect("set by cargo"))
            .join("../../crates/cdsat/out"),
    };
    let library = folder.join("libcdsat.a");
    println!("cargo::rerun-if-changed={}", library.display());
    if !library.is_file() {
        println!(
            "cargo::error=there is no {}: run `rt lib` in the repository's crates/cdsat, \
             or let CDSAT_LIB_DIR name the folder that holds libcdsat.a",
            library.display()
        );
        return;
    }
    println!("cargo::rustc-link-search=native={}", folder.display());
    println!("cargo::rustc-link-lib=static:-bundle=cdsat");
}
