//! Links the archives of the processor levels, those in `native/` or in the folder that
//! `VORTEX_BITS_NATIVE` names, and says so by `cfg(vortex_bits_native)`. Nothing is linked under
//! Miri, on another machine than x86-64 Linux, or if an archive is missing; with the feature
//! `proved` the last two are errors. An archive that it would link is always an error if it is
//! built from other sources than `src/digest.rs` names.
use std::env;
use std::ffi::OsString;
use std::fs;
use std::path::{Path, PathBuf};

#[macro_use]
#[path = "src/digest.rs"]
mod digest;

const LEVELS: [&str; 2] = ["v2", "v3"];

fn main() {
    println!("cargo::rerun-if-env-changed=VORTEX_BITS_NATIVE");
    println!("cargo::rerun-if-env-changed=VORTEX_BITS_PROVED");
    println!("cargo::rustc-check-cfg=cfg(vortex_bits_native)");
    let folder = folder();
    watch(&folder);
    if variable("CARGO_CFG_MIRI").is_some() {
        return;
    }
    if !has_code() {
        if wants_proved() {
            println!("cargo::error=feature `proved`: proved code is for x86-64 Linux alone");
        }
        return;
    }
    let missing = LEVELS.map(|level| archive(&folder, level));
    if let Some(missing) = missing.iter().find(|archive| !archive.is_file()) {
        return say_missing(missing);
    }
    let faults: Vec<String> = LEVELS
        .iter()
        .filter_map(|level| fault(&folder, level))
        .collect();
    if faults.is_empty() {
        return link(&folder);
    }
    for fault in faults {
        println!("cargo::error={fault}");
    }
}

/// Runs this script again when the archives change, or when their folder gets some. Cargo would run
/// it at each build if it watched a file that is missing, so it doesn't see a new folder: the
/// warning says what to do then.
fn watch(folder: &Path) {
    let archives = LEVELS.map(|level| archive(folder, level));
    let watched: &[PathBuf] = if archives.iter().all(|it| it.is_file()) {
        &archives
    } else if folder.is_dir() {
        &[folder.to_path_buf()]
    } else {
        &[PathBuf::from("Cargo.toml")]
    };
    for it in watched {
        println!("cargo::rerun-if-changed={}", it.display());
    }
}

fn link(folder: &Path) {
    if named_folder().is_some() {
        let folder = folder.display();
        println!("cargo::warning=VORTEX_BITS_NATIVE: the archives are those in {folder}");
    }
    println!("cargo::rustc-cfg=vortex_bits_native");
    println!("cargo::rustc-link-search=native={}", folder.display());
    for level in LEVELS {
        println!("cargo::rustc-link-lib=static={}", library(level));
    }
}

fn say_missing(archive: &Path) {
    let missing = archive.display();
    if wants_proved() {
        println!("cargo::error=feature `proved`: no {missing}, which bindings/build makes");
        return;
    }
    println!("cargo::warning=no {missing}: without both archives no proved code runs");
    if !archive.parent().is_some_and(Path::is_dir) {
        let watched = own_folder().join("Cargo.toml");
        let watched = watched.display();
        println!("cargo::warning=once their folder is there: `touch '{watched}'`");
    }
}

/// Returns an error unless the archive of a level is built from the sources of the digest.
fn fault(folder: &Path, level: &str) -> Option<String> {
    let (archive, wanted) = (archive(folder, level), digest!());
    let is = archive.display();
    let bytes = match fs::read(&archive) {
        Ok(bytes) => bytes,
        Err(error) => return Some(format!("{is} can't be read: {error}")),
    };
    match named(&bytes, level) {
        Some(named) if named == wanted => None,
        Some(named) => Some(format!(
            "{is} is built from the sources of digest {named}, and this crate wants {wanted}: \
             bindings/build makes one of these"
        )),
        None => Some(format!(
            "{is} doesn't say from which sources it is built, and this crate wants {wanted}: \
             bindings/build makes one of these"
        )),
    }
}

/// The digest in the name of a symbol of an archive.
fn named(archive: &[u8], level: &str) -> Option<String> {
    let name = format!("vb_{}_{level}_digest_", version());
    let mut places = archive.windows(name.len());
    let behind = places.position(|it| it == name.as_bytes())? + name.len();
    let digits = archive[behind..].iter();
    let digits = digits.take_while(|digit| digit.is_ascii_hexdigit());
    Some(digits.map(|&digit| char::from(digit)).collect())
}

fn folder() -> PathBuf {
    own_folder().join(named_folder().unwrap_or_else(|| "native".into()))
}

fn own_folder() -> PathBuf {
    PathBuf::from(env::var_os("CARGO_MANIFEST_DIR").unwrap_or_default())
}

/// The folder that `VORTEX_BITS_NATIVE` names. An empty variable names none.
fn named_folder() -> Option<OsString> {
    env::var_os("VORTEX_BITS_NATIVE").filter(|it| !it.is_empty())
}

/// The version that is in the names of archives and functions, so that a program may have two.
fn version() -> String {
    let [major, minor] = ["CARGO_PKG_VERSION_MAJOR", "CARGO_PKG_VERSION_MINOR"]
        .map(|name| variable(name).unwrap_or_default());
    format!("{major}_{minor}")
}

fn library(level: &str) -> String {
    format!("vortex_bits_{}_{level}", version())
}

fn archive(folder: &Path, level: &str) -> PathBuf {
    folder.join(format!("lib{}.a", library(level)))
}

/// Whether the proved code has to be there. `VORTEX_BITS_PROVED=optional` is for the tests of the
/// crate itself: `.cargo/config.toml` beside this file sets it, so that `--all-features` can be
/// tested in a clone without archives. Cargo doesn't read that file for those who depend on it.
fn wants_proved() -> bool {
    let is_optional = variable("VORTEX_BITS_PROVED").is_some_and(|it| it == "optional");
    variable("CARGO_FEATURE_PROVED").is_some() && !is_optional
}

/// Whether the archives have code for the target.
fn has_code() -> bool {
    let is = |name, value| variable(name).is_some_and(|it| it == value);
    is("CARGO_CFG_TARGET_ARCH", "x86_64")
        && is("CARGO_CFG_TARGET_OS", "linux")
        && is("CARGO_CFG_TARGET_POINTER_WIDTH", "64")
}

fn variable(name: &str) -> Option<String> {
    env::var(name).ok()
}
