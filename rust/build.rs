//! Links the static library that `tools/host` writes; or the one in the folder that CASTANWEL_LIBRARY names.
use std::env;
use std::path::Path;

fn main() {
    let here = env::var("CARGO_MANIFEST_DIR").expect("cargo sets CARGO_MANIFEST_DIR");
    let folder = env::var("CASTANWEL_LIBRARY").unwrap_or_else(|_| format!("{}/../target/staticlib", here));
    let library = Path::new(&folder).join("libhost.a");
    if !library.exists() {
        println!("cargo:warning=the proved library is not built yet: run tools/host at the top of the repository");
    }
    println!("cargo:rustc-link-search=native={}", folder);
    println!("cargo:rustc-link-lib=static=host");
    println!("cargo:rerun-if-changed={}", library.display());
    println!("cargo:rerun-if-env-changed=CASTANWEL_LIBRARY");
    println!("cargo:rerun-if-changed=build.rs");
}
