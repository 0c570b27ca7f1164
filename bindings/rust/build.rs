// Links libwfe_c.a, which `make` in bindings/c makes, or which WFE_LIB names the folder of.
use std::{env, path::Path};

fn main() {
    let here = env::var("CARGO_MANIFEST_DIR").expect("cargo sets it");
    let folder = env::var("WFE_LIB").unwrap_or_else(|_| format!("{here}/../c/out"));
    let archive = format!("{folder}/libwfe_c.a");
    println!("cargo:rerun-if-env-changed=WFE_LIB");
    println!("cargo:rerun-if-changed={archive}");
    if !Path::new(&archive).exists() {
        println!("cargo:warning=there is no {archive}: `make` in bindings/c makes it, or set WFE_LIB to its folder");
    }
    println!("cargo:rustc-link-search=native={folder}");
    println!("cargo:rustc-link-lib=static=wfe_c");
}
