//! Links the proved program's static library, libexported_c.a, which `.ci/library` or, in crates/exported_c, `rt lib` builds.

use std::env;
use std::path::PathBuf;

fn main() {
    println!("cargo:rerun-if-env-changed=CUSTODY_LIB_DIR");
    let folder = match env::var_os("CUSTODY_LIB_DIR") {
        Some(given) => PathBuf::from(given),
        None => PathBuf::from(env::var_os("CARGO_MANIFEST_DIR").expect("set by cargo"))
            .join("../crates/exported_c/out"),
    };
    // Linked again when the library is built again.
    let library = folder.join("libexported_c.a");
    println!("cargo:rerun-if-changed={}", library.display());
    println!("cargo:rustc-link-search=native={}", folder.display());
    println!("cargo:rustc-link-lib=static=exported_c");
}
