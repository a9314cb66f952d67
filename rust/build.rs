//! Finds the static library: in the folder that TWIMBOR_LIB names, else where
//! `tools/build twimbor` writes it. One of another version than the crate's is refused.

use std::path::{Path, PathBuf};
use std::{env, fs, str};

fn folder() -> PathBuf {
    let package = PathBuf::from(env::var_os("CARGO_MANIFEST_DIR").expect("set by cargo"));
    match env::var_os("TWIMBOR_LIB").filter(|name| !name.is_empty()).map(PathBuf::from) {
        None => package.join("../target/staticlib"),
        Some(folder) if folder.is_absolute() => folder,
        // Cargo runs this in the package's folder, but the path is meant from where the user stands.
        Some(folder) => {
            println!("cargo::rerun-if-env-changed=PWD");
            env::var_os("PWD").map_or(package, PathBuf::from).join(folder)
        }
    }
}

/// The version that an archive's one symbol of this form names, `twimbor_header_V_needs_archive_V`,
/// as 0.12.0 for 0_12_0.
fn version_of(archive: &[u8]) -> Option<String> {
    let names = archive.split(|&byte| byte == 0).filter_map(|name| str::from_utf8(name).ok());
    let (header, needed) = names
        .filter_map(|name| name.strip_prefix("twimbor_header_"))
        .find_map(|versions| versions.split_once("_needs_archive_"))?;
    (header == needed).then(|| needed.replace('_', "."))
}

/// Why an archive cannot be linked.
fn unfit(library: &Path) -> Option<String> {
    let Ok(archive) = fs::read(library) else {
        return Some(format!(
            "{} is not there: run `tools/build twimbor` at the root of the repository, or let \
             TWIMBOR_LIB name the folder of libtwimbor.a",
            library.display()
        ));
    };
    let crates = env::var("CARGO_PKG_VERSION").expect("set by cargo");
    let found = version_of(&archive).unwrap_or("older than 0.12.0".into());
    (found != crates)
        .then(|| format!("the crate is twimbor {crates}, and {} is {found}", library.display()))
}

fn main() {
    println!("cargo::rerun-if-env-changed=TWIMBOR_LIB");
    let folder = folder();
    let library = folder.join("libtwimbor.a");
    println!("cargo::rerun-if-changed={}", library.display());
    if let Some(why) = unfit(&library) {
        println!("cargo::error={why}");
    } else {
        println!("cargo::rustc-link-search=native={}", folder.display());
        println!("cargo::rustc-link-lib=static=twimbor");
        // For the tests that compile C.
        println!("cargo::rustc-env=TWIMBOR_ARCHIVE={}", library.display());
    }
}
