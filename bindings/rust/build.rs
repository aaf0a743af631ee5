//! Links the proved library's archive: from the folder that CAD_TESS_DIR names, or from dist/ at the repository's root, where
//! `./build` puts it. The archive is for x86-64 with the System V calling convention, and a target with another stops here.

use std::env::var;
use std::path::{Path, PathBuf};

/// Whether the target's calls are those of the archive, as far as its name tells.
fn fits_the_archive() -> bool {
    let is = |name: &str, value: &str| var(format!("CARGO_CFG_TARGET_{name}")).is_ok_and(|found| found == value);
    is("ARCH", "x86_64") && is("POINTER_WIDTH", "64") && is("FAMILY", "unix") && !is("VENDOR", "apple") && !is("OS", "cygwin")
}

fn main() {
    if !fits_the_archive() {
        eprintln!(
            "libcad_tess.a is for x86-64 with the System V calling convention (ELF), and the target is {}.",
            var("TARGET").unwrap_or_default()
        );
        std::process::exit(1);
    }
    println!("cargo:rerun-if-env-changed=CAD_TESS_DIR");
    let own = || Path::new(env!("CARGO_MANIFEST_DIR")).join("../../dist");
    let folder = std::env::var_os("CAD_TESS_DIR").map_or_else(own, PathBuf::from);
    let archive = folder.join("libcad_tess.a");
    println!("cargo:rerun-if-changed={}", archive.display());
    if !archive.is_file() {
        eprintln!("{} isn't there.", archive.display());
        eprintln!("Run ./build at the repository's root to make it, or set CAD_TESS_DIR to the folder that has it.");
        std::process::exit(1);
    }
    println!("cargo:rustc-link-search=native={}", folder.display());
    println!("cargo:rustc-link-lib=static=cad_tess");
}
