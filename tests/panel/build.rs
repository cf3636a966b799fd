//! Links the built archive that HARMIKSE_ARCHIVE names by its full path.

use std::path::PathBuf;

fn main() {
    println!("cargo:rerun-if-env-changed=HARMIKSE_ARCHIVE");
    let archive = std::env::var("HARMIKSE_ARCHIVE").expect("HARMIKSE_ARCHIVE is not set");
    let archive = PathBuf::from(archive);
    let folder = archive.parent().expect("the archive has no folder");
    println!("cargo:rerun-if-changed={}", archive.display());
    println!("cargo:rustc-link-search=native={}", folder.display());
    println!("cargo:rustc-link-lib=static=panel");
}
