//! Finds `libdyngrid.a` and hands it to the linker.

use std::env;
use std::path::{Path, PathBuf};
use std::process::exit;

const ARCHIVE: &str = "libdyngrid.a";

fn main() {
    println!("cargo:rerun-if-env-changed=DYNGRID_LIB");
    let folders = match env::var_os("DYNGRID_LIB").filter(|folder| !folder.is_empty()) {
        Some(folder) => named(PathBuf::from(folder)),
        // Of a checkout, and of what `make dist` packs.
        None => ["../../target/staticlib", "../../lib"].map(|folder| package().join(folder)).into(),
    };
    let found = folders.iter().find_map(|folder| folder.join(ARCHIVE).canonicalize().ok());
    let Some(archive) = found else {
        let looked: Vec<String> = folders.iter().map(|folder| plain(folder).display().to_string()).collect();
        eprintln!("There is no {ARCHIVE} in {}.", looked.join(", nor in "));
        eprintln!("Please run `make lib` in the top folder, or set DYNGRID_LIB to the folder that holds it.");
        exit(1);
    };
    let folder = archive.parent().expect("a file lies in a folder");
    println!("cargo:rerun-if-changed={}", archive.display());
    println!("cargo:rustc-link-search=native={}", folder.display());
    println!("cargo:rustc-link-lib=static=dyngrid");
}

fn package() -> PathBuf {
    env::var_os("CARGO_MANIFEST_DIR").expect("set by cargo").into()
}

/// A folder that is not told from the root on is looked for where cargo was called, and then where this file is.
fn named(folder: PathBuf) -> Vec<PathBuf> {
    if folder.is_absolute() {
        return vec![folder];
    }
    println!("cargo:rerun-if-env-changed=PWD");
    let called = env::var_os("PWD").map(PathBuf::from);
    called.into_iter().chain([package()]).map(|from| from.join(&folder)).collect()
}

/// The folder without ways back in it, if it is there.
fn plain(folder: &Path) -> PathBuf {
    folder.canonicalize().unwrap_or_else(|_| folder.to_path_buf())
}
