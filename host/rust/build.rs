//! Links `libtenonwhisk.a`: the file that `TENONWHISK_LIB` names, or the one that `host/build` makes.

use std::ffi::OsString;
use std::path::{Path, PathBuf};
use std::{env, fs, process};

fn main() {
    println!("cargo:rerun-if-env-changed=TENONWHISK_LIB");
    let package = PathBuf::from(required("CARGO_MANIFEST_DIR"));
    let out = PathBuf::from(required("OUT_DIR"));
    let (place, archive) = first_read(places(&package)).unwrap_or_else(|message| {
        eprintln!("{message}");
        process::exit(1);
    });
    fs::write(out.join("libtenonwhisk.a"), archive).expect("a build script can write to OUT_DIR");
    println!("cargo:rerun-if-changed={}", place.display());
    println!("cargo:rustc-link-search=native={}", out.display());
    println!("cargo:rustc-link-lib=static=tenonwhisk");
}

fn required(name: &str) -> OsString {
    env::var_os(name).unwrap_or_else(|| panic!("cargo sets {name}"))
}

/// Where the archive may be, in the order of trying. The repository's root is two folders above the package.
fn places(package: &Path) -> Vec<PathBuf> {
    let repository = package.ancestors().nth(2).unwrap_or(package);
    match env::var_os("TENONWHISK_LIB").filter(|name| !name.is_empty()).map(PathBuf::from) {
        None => vec![repository.join("target/host/libtenonwhisk.a")],
        Some(path) if path.is_absolute() => vec![path],
        Some(path) => folders(repository, package).iter().map(|folder| folder.join(&path)).collect(),
    }
}

/// The folders that a relative path may start from. Cargo runs a build script in the package's folder, but `PWD` still
/// names the folder in which cargo was started.
fn folders(repository: &Path, package: &Path) -> Vec<PathBuf> {
    println!("cargo:rerun-if-env-changed=PWD");
    let mut folders = vec![repository.to_path_buf(), package.to_path_buf()];
    if let Some(started) = env::var_os("PWD").map(PathBuf::from).filter(|folder| folder.is_absolute()) {
        folders.retain(|folder| *folder != started);
        folders.insert(0, started);
    }
    folders
}

/// The first archive that can be read, or a message that names every place.
fn first_read(places: Vec<PathBuf>) -> Result<(PathBuf, Vec<u8>), String> {
    let mut message = String::from("cannot read libtenonwhisk.a:\n");
    for place in places {
        match fs::read(&place) {
            Ok(archive) => return Ok((place, archive)),
            Err(error) => message += &format!("  {}: {error}\n", place.display()),
        }
    }
    Err(message + "run host/build, or name the archive in TENONWHISK_LIB")
}
