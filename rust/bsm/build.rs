//! Links the archive of the proved library: from the folder that
//! BSM_ARCHIVE_DIR names, or from target/staticlib of the repository.

use std::env;
use std::path::{Path, PathBuf};
use std::process::exit;

const ARCHIVE: &str = "libbsm_export.a";

fn main() {
    println!("cargo:rerun-if-env-changed=BSM_ARCHIVE_DIR");
    let folder = match env::var_os("BSM_ARCHIVE_DIR") {
        Some(folder) => PathBuf::from(folder),
        None => Path::new(env!("CARGO_MANIFEST_DIR")).join("../../target/staticlib"),
    };
    let archive = folder.join(ARCHIVE);
    println!("cargo:rerun-if-changed={}", archive.display());
    if !archive.is_file() {
        eprintln!("{} is missing.", archive.display());
        eprintln!("Run `scripts/ready bsm library` in the repository's root to make it,");
        eprintln!("or set BSM_ARCHIVE_DIR to the folder that holds {ARCHIVE}.");
        exit(1);
    }
    println!("cargo:rustc-link-search=native={}", folder.display());
    println!("cargo:rustc-link-lib=static=bsm_export");
}
