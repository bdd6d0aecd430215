//! Tells cargo where the proved static library is: in target/staticlib of the repository that this crate stands in, or in the folder that
//! `DWG_HATCH_LIB_DIR` names.

use std::env;
use std::path::{Path, PathBuf};

const FOLDER: &str = "DWG_HATCH_LIB_DIR";
const FILE: &str = "libdwg_hatch.a";

fn main() {
    println!("cargo::rerun-if-changed=build.rs");
    println!("cargo::rerun-if-env-changed={FOLDER}");
    let named = env::var_os(FOLDER).filter(|folder| !folder.is_empty()).map(PathBuf::from);
    let repository = Path::new(&env::var_os("CARGO_MANIFEST_DIR").expect("cargo sets it")).join("..");
    let folder = named.clone().unwrap_or_else(|| repository.join("target/staticlib"));
    println!("cargo::rerun-if-changed={}", folder.join(FILE).display());
    match folder.canonicalize() {
        Ok(folder) if folder.join(FILE).is_file() => {
            println!("cargo::rustc-link-search=native={}", folder.display());
            println!("cargo::rustc-link-lib=static=dwg_hatch");
        }
        _ => {
            let repository = repository.canonicalize().unwrap_or(repository);
            let set = if named.is_some() { format!(", which {FOLDER} names") } else { String::new() };
            let make = "./dwg-hatch --help";
            println!("cargo::error=there is no {FILE} in {}{set}: make it by `{make}` in {}", folder.display(), repository.display());
        }
    }
}
