//! Links `libgix_refspec.a`: of the folder that it was installed below, which the environment variable
//! `GIX_REFSPEC_FOLDER` names; else, with the feature `vendored`, the crate's own copy; and else that of pkg-config.
use std::env;
use std::ffi::OsStr;
use std::path::{Path, PathBuf};
use std::process::{exit, Command};

const VARIABLE: &str = "GIX_REFSPEC_FOLDER";
const ARCHIVE: &str = "libgix_refspec.a";

fn main() {
    for variable in [VARIABLE, "PKG_CONFIG_PATH", "PKG_CONFIG_LIBDIR", "PKG_CONFIG_SYSROOT_DIR"] {
        println!("cargo:rerun-if-env-changed={variable}");
    }
    println!("cargo:rerun-if-changed=build.rs");
    let found = match env::var_os(VARIABLE) {
        Some(folder) => named_folder(&folder),
        None if env::var_os("CARGO_FEATURE_VENDORED").is_some() => own_folder(),
        None => known_folder(),
    };
    let folder = found.unwrap_or_else(|sentence| {
        eprintln!("{sentence}");
        exit(1)
    });
    println!("cargo:rerun-if-changed={}", folder.join(ARCHIVE).display());
    println!("cargo:rustc-link-search=native={}", folder.display());
    println!("cargo:rustc-link-lib=static=gix_refspec");
}

/// The folder of the static library: `lib` below the named one, or the named one itself. Else a sentence on what is wrong.
fn named_folder(named: &OsStr) -> Result<PathBuf, String> {
    if named.is_empty() {
        return Err(format!("{VARIABLE} is empty: name the folder below which {ARCHIVE} is, or unset it."));
    }
    let named = Path::new(named);
    let shown = named.display();
    if named.is_relative() {
        // Each crate is built in a folder of its own.
        return Err(format!("{VARIABLE} is `{shown}`, a relative path: name the folder by its full path."));
    }
    let folders = [named.join("lib"), named.to_owned()];
    match folders.into_iter().find(|folder| folder.join(ARCHIVE).exists()) {
        Some(folder) => Ok(folder),
        None => Err(format!("{VARIABLE} names {shown}, but neither that folder nor its `lib` has {ARCHIVE}.")),
    }
}

/// The folder of the crate's own copy for the target. Else a sentence on what is wrong.
fn own_folder() -> Result<PathBuf, String> {
    let told = |name| env::var(name).unwrap_or_default();
    let (processor, system) = (told("CARGO_CFG_TARGET_ARCH"), told("CARGO_CFG_TARGET_OS"));
    let folder = Path::new(&told("CARGO_MANIFEST_DIR")).join("vendored").join(&processor);
    if system == "linux" && folder.join(ARCHIVE).exists() {
        return Ok(folder);
    }
    Err(format!(
        "The feature `vendored` has no {ARCHIVE} for {processor}-{system}: only the packaged crate has copies, for x86_64-linux and \
         aarch64-linux. Name the folder below which it is in the environment variable {VARIABLE}."
    ))
}

/// The folder of the static library of this version, as pkg-config knows it. Else a sentence on what is wrong.
fn known_folder() -> Result<PathBuf, String> {
    // Before 1.0 every new minor version may break its callers.
    let (major, minor) = (env!("CARGO_PKG_VERSION_MAJOR"), env!("CARGO_PKG_VERSION_MINOR"));
    let version = ask("--modversion");
    let folder = PathBuf::from(ask("--variable=libdir"));
    if version.starts_with(&format!("{major}.{minor}.")) && folder.join(ARCHIVE).exists() {
        return Ok(folder);
    }
    Err(format!(
        "pkg-config knows no {ARCHIVE} of version {major}.{minor}: install it, and name the folder below which it is in the \
         environment variable {VARIABLE}, or the one with gix_refspec.pc in PKG_CONFIG_PATH; or use the crate's own copy, by the \
         feature `vendored`."
    ))
}

/// What pkg-config tells of the library; nothing if there is none.
fn ask(what: &str) -> String {
    let asked = Command::new("pkg-config").args([what, "gix_refspec"]).output();
    asked.map(|output| String::from_utf8_lossy(&output.stdout).trim().to_owned()).unwrap_or_default()
}
