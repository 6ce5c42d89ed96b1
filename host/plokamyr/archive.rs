//! For build scripts: archives are found, and copies of them linked. Nothing here is known before the script runs, and a copy
//! stands where cargo looks for it, so that a repository may be moved or copied with what it has built.

use std::env;
use std::fs;
use std::os::unix::process::parent_id;
use std::path::{Path, PathBuf};
use std::process::exit;

/// The library's archive: as `rt lib` calls it in the folder of the crate `capi`, and as `./install` does.
pub const LIBRARY: [&str; 2] = ["libcapi.a", "libplokamyr.a"];

/// The folder of a crate's archive: the one that `PLOKAMYR_LIB` names, or where `rt lib` puts it.
pub fn folder(name: &str) -> PathBuf {
    named("PLOKAMYR_LIB").unwrap_or_else(|| PathBuf::from(format!("../../crates/{name}/out")))
}

/// The folder that a variable names, if it is set and not empty. A relative path begins where cargo was called.
pub fn named(variable: &str) -> Option<PathBuf> {
    println!("cargo:rerun-if-env-changed={variable}");
    let folder = env::var_os(variable).filter(|folder| !folder.is_empty()).map(PathBuf::from)?;
    if folder.is_relative() {
        // what it names changes with the caller, of which cargo knows nothing: a file that is never there has this script run at each build
        println!("cargo:rerun-if-changed={}", out().join("never").display());
        return Some(caller().join(folder));
    }
    Some(folder)
}

/// Where cargo was called, which is not where it runs this script.
fn caller() -> PathBuf {
    let of_cargo = fs::read_link(format!("/proc/{}/cwd", parent_id()));
    of_cargo.unwrap_or_else(|_| PathBuf::from(env::var_os("PWD").unwrap_or_default()))
}

/// The archive in a folder that has one of the names.
pub fn find(folder: &Path, names: &[&str], what_to_do: &str) -> PathBuf {
    let archive = names.iter().map(|name| folder.join(name)).find(|archive| archive.is_file());
    let archive = archive.unwrap_or_else(|| {
        // from / on, for people
        let folder = folder.canonicalize().unwrap_or_else(|_| of("CARGO_MANIFEST_DIR").join(folder));
        stop(&format!("There is no {} in {}.\n{what_to_do}", names.join(" and no "), folder.display()))
    });
    println!("cargo:rerun-if-changed={}", archive.display());
    archive
}

/// Links a copy of an archive under a name.
pub fn link(name: &str, archive: &Path) {
    let copy = out().join(format!("lib{name}.a"));
    if let Err(error) = fs::read(archive).and_then(|bytes| fs::write(&copy, bytes)) {
        stop(&format!("{} cannot be copied to {}: {error}", archive.display(), copy.display()));
    }
    link_made(name);
}

/// Links an archive that stands among this script's files.
pub fn link_made(name: &str) {
    println!("cargo:rustc-link-search=native={}", out().display());
    println!("cargo:rustc-link-lib=static={name}");
}

/// The folder for this script's files.
pub fn out() -> PathBuf {
    of("OUT_DIR")
}

/// A folder that cargo names.
fn of(variable: &str) -> PathBuf {
    PathBuf::from(env::var_os(variable).unwrap_or_default())
}

pub fn stop(why: &str) -> ! {
    eprintln!("{why}");
    exit(1);
}
