//! Links the static library that `bindings/library` writes; BARANDUK_LIB names another folder that has it.
use std::env;
use std::path::PathBuf;

fn main() {
    println!("cargo:rerun-if-env-changed=BARANDUK_LIB");
    let folder = match env::var_os("BARANDUK_LIB") {
        Some(folder) => PathBuf::from(folder),
        None => PathBuf::from(env::var_os("CARGO_MANIFEST_DIR").expect("cargo sets it")).join("../../target/staticlib"),
    };
    let library = folder.join("libembed.a");
    println!("cargo:rerun-if-changed={}", library.display());
    if !library.exists() {
        panic!("{} is missing: run `bindings/library`, or set BARANDUK_LIB", library.display());
    }
    println!("cargo:rustc-link-search=native={}", folder.display());
    println!("cargo:rustc-link-lib=static=embed");
}
