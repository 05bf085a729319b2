//! Links libholvreiz.a, which `tests/build` writes. HOLVREIZ_LIB_DIR names another folder to take it from.
use std::env;
use std::path::PathBuf;

fn main() {
    println!("cargo:rerun-if-env-changed=HOLVREIZ_LIB_DIR");
    let folder = match env::var_os("HOLVREIZ_LIB_DIR") {
        Some(folder) => PathBuf::from(folder),
        None => PathBuf::from(env::var_os("CARGO_MANIFEST_DIR").expect("cargo sets it"))
            .join("../../target/staticlib"),
    };
    let archive = folder.join("libholvreiz.a");
    if !archive.is_file() {
        panic!(
            "no {}: run `tests/build`, or set HOLVREIZ_LIB_DIR",
            archive.display()
        );
    }
    println!("cargo:rerun-if-changed={}", archive.display());
    println!("cargo:rustc-link-search=native={}", folder.display());
    println!("cargo:rustc-link-lib=static=holvreiz");
}
