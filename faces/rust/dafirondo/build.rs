//! Links the static library `libdafirondo.a`: from the directory `DAFIRONDO_LIB`, or, for a crate that `tools/install` has put
//! below a prefix, from the folder `lib` there.

use std::env;
use std::path::PathBuf;

fn main() {
    println!("cargo:rerun-if-env-changed=DAFIRONDO_LIB");
    let installed = || PathBuf::from(env::var_os("CARGO_MANIFEST_DIR").unwrap_or_default()).join("../../../lib");
    let directory = env::var_os("DAFIRONDO_LIB").map_or_else(installed, PathBuf::from);
    let library = directory.join("libdafirondo.a");
    if library.exists() {
        println!("cargo:rustc-link-search=native={}", directory.display());
        println!("cargo:rerun-if-changed={}", library.display());
    }
    println!("cargo:rustc-link-lib=static=dafirondo");
    println!("cargo:rustc-link-lib=m");
}
