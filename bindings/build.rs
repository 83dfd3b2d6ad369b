//! Finds libseparation.a, which tools/install puts below a prefix: in the folder that SEPARATION_LIB names, else in the lib of the prefix that
//! this crate is installed in.

use std::env;
use std::path::{Path, PathBuf};

fn library_folder() -> PathBuf {
    match env::var_os("SEPARATION_LIB") {
        Some(folder) => folder.into(),
        None => Path::new(&env::var_os("CARGO_MANIFEST_DIR").expect("cargo names the crate's folder")).join("../../../lib"),
    }
}

/// The reason for which nothing can be linked, if there is one.
fn hindrance(folder: &Path) -> Option<String> {
    let processor = env::var("CARGO_CFG_TARGET_ARCH").expect("cargo names the processor");
    if processor != "x86_64" {
        return Some(format!("libseparation.a is for x86-64, and this build is for {processor}"));
    }
    let library = folder.join("libseparation.a");
    (!library.is_file()).then(|| {
        format!("no {}: run tools/install PREFIX, and set SEPARATION_LIB to PREFIX/lib", library.display())
    })
}

fn main() {
    println!("cargo:rerun-if-env-changed=SEPARATION_LIB");
    let folder = library_folder();
    if let Some(reason) = hindrance(&folder) {
        eprintln!("separation: {reason}");
        std::process::exit(1);
    }
    println!("cargo:rerun-if-changed={}", folder.join("libseparation.a").display());
    println!("cargo:rustc-link-search=native={}", folder.display());
    println!("cargo:rustc-link-lib=static=separation");
}
