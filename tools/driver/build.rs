//! Links ieee.c as an archive, for the second opinion; tools/driver/build makes it. The crate polskrea links the proved libraries.
use std::env;

fn main() {
    println!("cargo:rerun-if-env-changed=DRIVER_LIBS");
    let folder = env::var("DRIVER_LIBS").expect("DRIVER_LIBS names the folder of libieee.a");
    println!("cargo:rustc-link-search=native={folder}");
    println!("cargo:rustc-link-lib=static=ieee");
    println!("cargo:rustc-link-lib=m");
}
