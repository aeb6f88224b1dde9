//! Links the proved static library, which `tools/staticlib` writes, or
//! the one in the folder that `IVLEAGUE_FOLDER` names.

#![deny(warnings)]

use std::env;
use std::path::{Path, PathBuf};

fn main() {
    let here = env::var("CARGO_MANIFEST_DIR").expect("cargo names the package's folder");
    let proved = Path::new(&here).join("../../target/staticlib");
    let folder = env::var_os("IVLEAGUE_FOLDER").map_or(proved, PathBuf::from);
    let library = folder.join("libivleague.a");
    assert!(
        library.exists(),
        "{} is not there: run `tools/staticlib`",
        library.display()
    );
    println!("cargo:rerun-if-env-changed=IVLEAGUE_FOLDER");
    println!("cargo:rerun-if-changed={}", library.display());
    println!("cargo:rustc-link-search=native={}", folder.display());
    println!("cargo:rustc-link-lib=static=ivleague");
}
