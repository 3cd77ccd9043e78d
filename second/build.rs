//! Links the proved library where its archive stands: `target/staticlib/libapi.a` of the
//! repository, written by `tools/archive`. Without it the second program is built alone, and what
//! compares the two is left out.

use std::path::Path;

fn main() {
    println!("cargo:rerun-if-changed=build.rs");
    println!("cargo:rustc-check-cfg=cfg(linked)");
    let folder = Path::new(env!("CARGO_MANIFEST_DIR")).join("../target/staticlib");
    let archive = folder.join("libapi.a");
    // A path that is not there yet makes cargo look again at the next build.
    println!("cargo:rerun-if-changed={}", archive.display());
    if archive.is_file() {
        println!("cargo:rustc-cfg=linked");
        println!("cargo:rustc-link-search=native={}", folder.display());
        println!("cargo:rustc-link-lib=static=api");
    }
}
