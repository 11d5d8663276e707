//! With the feature `library` the proved library is linked: libdronesickle.a, in the folder that the environment
//! variable DRONESICKLE_LIB names. Without the feature there is nothing to do.

use std::env;
use std::path::PathBuf;

const FOLDER: &str = "DRONESICKLE_LIB";

fn main() {
    println!("cargo::rerun-if-changed=build.rs");
    println!("cargo::rerun-if-env-changed={FOLDER}");
    if env::var_os("CARGO_FEATURE_LIBRARY").is_none() {
        return;
    }
    let folder = PathBuf::from(env::var_os(FOLDER).unwrap_or_default());
    let library = folder.join("libdronesickle.a");
    if !folder.is_absolute() || !library.is_file() {
        println!(
            "cargo::error={FOLDER} has to be the whole path of the folder with libdronesickle.a, which `rt lib` in crates/dronesickle writes to crates/dronesickle/out"
        );
        return;
    }
    println!("cargo::rerun-if-changed={}", library.display());
    println!("cargo::rustc-link-search=native={}", folder.display());
    println!("cargo::rustc-link-lib=static=dronesickle");
}
