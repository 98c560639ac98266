//! Links the proved library, which `rust/native` makes for this machine. Where BELLNEWT_SHARED names a folder while this is
//! built, the `librelay.so` there is linked instead, and looked for again when the program starts: so tools/wrong runs one
//! program on many libraries.

use std::env;
use std::path::Path;

const SHARED: &str = "BELLNEWT_SHARED";

fn main() {
    println!("cargo:rerun-if-env-changed={SHARED}");
    if let Ok(folder) = env::var(SHARED) {
        println!("cargo:rustc-link-search=native={folder}");
        println!("cargo:rustc-link-lib=dylib=relay");
        return;
    }
    let folder = concat!(env!("CARGO_MANIFEST_DIR"), "/../../target/native");
    let archive = format!("{folder}/librelay.a");
    if !Path::new(&archive).exists() {
        println!("cargo:warning=target/native/librelay.a is missing; `rust/native` makes it");
    }
    println!("cargo:rustc-link-search=native={folder}");
    println!("cargo:rustc-link-lib=static=relay");
    println!("cargo:rerun-if-changed={archive}");
}
