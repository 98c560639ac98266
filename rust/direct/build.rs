//! Links the calls of crates/c_trial, which `rust/native libtrial.a` makes for this machine. Where BELLNEWT_SHARED names a
//! folder while this is built, they are in the `librelay.so` there, as rust/bellnewt/build.rs says.

use std::env;
use std::path::Path;

const SHARED: &str = "BELLNEWT_SHARED";

fn main() {
    println!("cargo:rerun-if-env-changed={SHARED}");
    if let Ok(folder) = env::var(SHARED) {
        println!("cargo:rustc-link-search=native={folder}");
        println!("cargo:rustc-link-lib=dylib=relay");
        return;
    }
    let folder = concat!(env!("CARGO_MANIFEST_DIR"), "/../../target/native");
    let archive = format!("{folder}/libtrial.a");
    if !Path::new(&archive).exists() {
        println!("cargo:warning=target/native/libtrial.a is missing; `rust/native libtrial.a` makes it");
    }
    println!("cargo:rustc-link-search=native={folder}");
    println!("cargo:rustc-link-lib=static=trial");
    println!("cargo:rerun-if-changed={archive}");
}
