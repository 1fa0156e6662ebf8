//! Links libluvazhimba.a, which bindings/build.sh makes; LUVAZHIMBA_LIB is its folder, where that is not bindings/out.
use std::env;
use std::path::PathBuf;

fn main() {
    let here = PathBuf::from(env::var_os("CARGO_MANIFEST_DIR").unwrap());
    let folder = env::var_os("LUVAZHIMBA_LIB").map_or(here.join("../out"), PathBuf::from);
    if !folder.join("libluvazhimba.a").is_file() {
        println!("cargo:warning={} has no libluvazhimba.a: bindings/build.sh makes it, and LUVAZHIMBA_LIB names its folder", folder.display());
    }
    println!("cargo:rerun-if-env-changed=LUVAZHIMBA_LIB");
    println!("cargo:rerun-if-changed={}", folder.join("libluvazhimba.a").display());
    println!("cargo:rustc-link-search=native={}", folder.display());
    println!("cargo:rustc-link-lib=static=luvazhimba");
}
