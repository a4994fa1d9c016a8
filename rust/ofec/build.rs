//! Links the verified library, `libcapi.a`: from the folder that the environment variable
//! `OFEC_LIB_DIR` names, or else where `.ci/build` leaves it in the repository.

use std::env;
use std::path::{Path, PathBuf};
use std::process::exit;

/// The folder of the library, or what is wrong.
fn folder() -> Result<PathBuf, String> {
    let given = env::var_os("OFEC_LIB_DIR").filter(|folder| !folder.is_empty());
    let Some(given) = given else {
        let root = env::var_os("CARGO_MANIFEST_DIR").expect("set by cargo");
        return Ok(Path::new(&root).join("../../target/staticlib"));
    };
    let folder = PathBuf::from(given);
    match folder.is_absolute() {
        true => Ok(folder),
        false => Err("OFEC_LIB_DIR must be an absolute path".to_string()),
    }
}

/// Its archive, if it is there.
fn archive(folder: &Path) -> Result<PathBuf, String> {
    let archive = folder.join("libcapi.a");
    match archive.is_file() {
        true => Ok(archive),
        false => Err(format!(
            "{} is missing: run `bash .ci/build library` first, or set OFEC_LIB_DIR to the library's folder",
            archive.display()
        )),
    }
}

fn main() {
    println!("cargo:rerun-if-changed=build.rs");
    println!("cargo:rerun-if-env-changed=OFEC_LIB_DIR");
    match folder().and_then(|folder| Ok((archive(&folder)?, folder))) {
        Ok((archive, folder)) => {
            println!("cargo:rerun-if-changed={}", archive.display());
            println!("cargo:rustc-link-search=native={}", folder.display());
            println!("cargo:rustc-link-lib=static=capi");
        }
        Err(wrong) => {
            eprintln!("{wrong}");
            exit(1);
        }
    }
}
