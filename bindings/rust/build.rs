//! Tells the linker where libpolskrea.a, libpolskrea_preview.a and libpolskrea_typed.a stand: in POLSKREA_LIB_DIR, or where tools/libraries puts them.
use std::env;
use std::path::PathBuf;

fn main() {
    println!("cargo:rerun-if-env-changed=POLSKREA_LIB_DIR");
    let folder = match env::var_os("POLSKREA_LIB_DIR") {
        Some(folder) => PathBuf::from(folder),
        None => PathBuf::from(env::var_os("CARGO_MANIFEST_DIR").unwrap()).join("../../target/staticlib"),
    };
    for library in ["polskrea", "polskrea_preview", "polskrea_typed"] {
        println!("cargo:rerun-if-changed={}", folder.join(format!("lib{library}.a")).display());
        println!("cargo:rustc-link-lib=static={library}");
    }
    println!("cargo:rustc-link-search=native={}", folder.display());
}
