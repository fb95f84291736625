// Links target/staticlib/libcapi.a, which `tools/staticlib` writes; LIZKARG_LIB names another folder.
use std::path::PathBuf;

fn main() {
    println!("cargo:rerun-if-env-changed=LIZKARG_LIB");
    let folder = match std::env::var_os("LIZKARG_LIB") {
        Some(folder) => PathBuf::from(folder),
        None => PathBuf::from(env!("CARGO_MANIFEST_DIR")).join("../../target/staticlib"),
    };
    let archive = folder.join("libcapi.a");
    println!("cargo:rerun-if-changed={}", archive.display());
    assert!(archive.exists(), "{} is missing: run `tools/staticlib` first, or set LIZKARG_LIB", archive.display());
    println!("cargo:rustc-link-search=native={}", folder.display());
    println!("cargo:rustc-link-lib=static=capi");
}
