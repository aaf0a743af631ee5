//! Links the proved library's archive, which `./build` makes.

use std::path::Path;

fn main() {
    let folder = Path::new(env!("CARGO_MANIFEST_DIR")).join("../../target/staticlib");
    println!("cargo:rustc-link-search=native={}", folder.display());
    println!("cargo:rustc-link-lib=static=cad_tess");
    println!("cargo:rerun-if-changed={}", folder.join("libcad_tess.a").display());
}
