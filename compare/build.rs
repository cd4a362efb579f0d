//! Links the static library that `rt lib` writes in crates/cabinet.

use std::path::Path;
use std::process::exit;

fn main() {
    let library = "../crates/cabinet/out";
    let archive = format!("{library}/libcabinet.a");
    println!("cargo:rerun-if-changed={archive}");
    if !Path::new(&archive).exists() {
        eprintln!("compare: no library yet. In crates/cabinet: rt lib");
        exit(1);
    }
    println!("cargo:rustc-link-search=native={library}");
    println!("cargo:rustc-link-lib=static=cabinet");
}
