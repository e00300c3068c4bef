//! Finds libnakhshirul.a: in the folder that NAKHSHIRUL_LIB_DIR names, else where the
//! repository builds it, else beside this crate in a distribution.
use std::env;
use std::path::{Path, PathBuf};

const ARCHIVE: &str = "libnakhshirul.a";

fn folders() -> Vec<PathBuf> {
    if let Some(dir) = env::var_os("NAKHSHIRUL_LIB_DIR") {
        return vec![PathBuf::from(dir)];
    }
    let here =
        PathBuf::from(env::var_os("CARGO_MANIFEST_DIR").expect("cargo names the crate's folder"));
    vec![here.join("../../crates/nakhshirul/out"), here.join("../lib")]
}

fn has_archive(dir: &Path) -> bool {
    dir.join(ARCHIVE).is_file()
}

fn main() {
    println!("cargo:rerun-if-env-changed=NAKHSHIRUL_LIB_DIR");
    let tried = folders();
    let Some(dir) = tried.iter().find(|d| has_archive(d)) else {
        panic!("{ARCHIVE} is in none of {tried:?}: build it with `rt lib` in crates/nakhshirul, or set NAKHSHIRUL_LIB_DIR to its folder");
    };
    println!("cargo:rerun-if-changed={}", dir.join(ARCHIVE).display());
    println!("cargo:rustc-link-search=native={}", dir.display());
    println!("cargo:rustc-link-lib=static=nakhshirul");
}
