//! With the feature `proved`: links the proved library, whose folder the variable `ZHGARELLI_LIBRARY` names. Without it, does nothing.

use std::env;

const LIBRARY: &str = "capi";

fn main() {
    println!("cargo:rerun-if-changed=build.rs");
    if env::var_os("CARGO_FEATURE_PROVED").is_none() {
        return;
    }
    println!("cargo:rerun-if-env-changed=ZHGARELLI_LIBRARY");
    let folder =
        env::var("ZHGARELLI_LIBRARY").expect("ZHGARELLI_LIBRARY names the library's folder");
    println!("cargo:rerun-if-changed={folder}/lib{LIBRARY}.a");
    println!("cargo:rustc-link-search=native={folder}");
    println!("cargo:rustc-link-lib=static={LIBRARY}");
}
