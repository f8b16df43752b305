//! Links the library's static form, from the folder that `ZUGMELED_LIB_DIR` names, else from `dist`
//! of the repository.

use std::env;
use std::path::PathBuf;
use std::process;

const VARIABLE: &str = "ZUGMELED_LIB_DIR";
const LIBRARY: &str = "libzugmeled.a";

fn main() {
    let folder = folder();
    let library = folder.join(LIBRARY);
    println!("cargo::rerun-if-env-changed={VARIABLE}");
    println!("cargo::rerun-if-changed={}", library.display());
    if !library.is_file() {
        println!(
            "cargo::error={} isn't there: make it by `./build --library` at the top of the \
             repository, or have {VARIABLE} name the folder of {LIBRARY}, by its whole path",
            library.display()
        );
        process::exit(1);
    }
    println!("cargo::rustc-link-search=native={}", folder.display());
    println!("cargo::rustc-link-lib=static=zugmeled");
}

fn folder() -> PathBuf {
    match env::var_os(VARIABLE) {
        Some(folder) => PathBuf::from(folder),
        None => PathBuf::from(env!("CARGO_MANIFEST_DIR")).join("../../dist"),
    }
}
