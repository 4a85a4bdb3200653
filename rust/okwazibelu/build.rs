//! Links the proved static library, `target/staticlib/libscreen.a` of the repository or of the folder named by `OKW_LIB_DIR`.

use std::env;
use std::path::{Path, PathBuf};

fn main() {
    println!("cargo::rerun-if-env-changed=OKW_LIB_DIR");
    let folder = library_folder();
    let library = folder.join("libscreen.a");
    println!("cargo::rerun-if-changed={}", library.display());
    if library.is_file() {
        println!("cargo::rustc-link-search=native={}", folder.display());
        println!("cargo::rustc-link-lib=static=screen");
    } else {
        println!(
            "cargo::error=the proved library {} is not there: make it with 'make example' in the repository, or name its folder in OKW_LIB_DIR",
            library.display()
        );
    }
}

fn library_folder() -> PathBuf {
    if let Some(folder) = env::var_os("OKW_LIB_DIR") {
        return folder.into();
    }
    let crate_folder = env::var_os("CARGO_MANIFEST_DIR").expect("cargo names the crate's folder");
    let folder = Path::new(&crate_folder).join("../../target/staticlib");
    folder.canonicalize().unwrap_or(folder)
}
