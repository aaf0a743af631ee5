//! Links the proved joining, which `tools/prove join-speed lib join_speed` makes.

use std::path::Path;

fn main() {
    let folder = Path::new(env!("CARGO_MANIFEST_DIR")).join("../../target/staticlib");
    println!("cargo:rustc-link-search=native={}", folder.display());
    println!("cargo:rustc-link-lib=static=join_speed");
    println!("cargo:rerun-if-changed={}", folder.join("libjoin_speed.a").display());
}
