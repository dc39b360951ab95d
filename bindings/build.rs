//! Finds the scheduler's archive and links it.

use std::env;
use std::path::PathBuf;
use std::process::exit;

const ARCHIVE: &str = "liblent.a";
const FOLDER: &str = "PLAYBACK_LIB_DIR";

fn main() {
    let crate_folder = PathBuf::from(env::var_os("CARGO_MANIFEST_DIR").expect("cargo sets it"));
    let folder = match env::var_os(FOLDER) {
        Some(folder) => PathBuf::from(folder),
        None => crate_folder.join("../target/staticlib"),
    };
    let archive = folder.join(ARCHIVE);
    println!("cargo:rerun-if-env-changed={FOLDER}");
    println!("cargo:rerun-if-changed={}", archive.display());
    if !archive.is_file() {
        eprintln!(
            "playback: {} is missing. `make lib` at the root of the repository writes it to target/staticlib; \
             {FOLDER} names another folder, by an absolute path.",
            archive.display()
        );
        exit(1);
    }
    println!("cargo:rustc-link-search=native={}", folder.display());
    println!("cargo:rustc-link-lib=static=lent");
}
