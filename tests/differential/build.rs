//! Finds the static library for the program: in NAKHSHIRUL_LIB_DIR, or where the
//! repository builds it (crates/nakhshirul/out). The tests of the reference (`cargo test`) do not need it.

use std::env;
use std::path::PathBuf;

fn main() {
    println!("cargo:rerun-if-env-changed=NAKHSHIRUL_LIB_DIR");
    let here = PathBuf::from(env::var("CARGO_MANIFEST_DIR").unwrap());
    let directory = match env::var("NAKHSHIRUL_LIB_DIR") {
        Ok(given) => env::current_dir().unwrap().join(given),
        Err(_) => here.join("../../crates/nakhshirul/out"),
    };
    let archive = directory.join("libnakhshirul.a");
    println!("cargo:rerun-if-changed={}", archive.display());
    if !archive.exists() {
        println!("cargo:warning=no {}: the program will not link", archive.display());
    }
    println!("cargo:rustc-link-arg-bins={}", archive.display());
}
