//! Finds the archive and links it.

use std::env;
use std::path::{Path, PathBuf};
use std::process::{exit, Command};

/// The archive's name as installed, and in the repository that builds it.
const NAMES: [&str; 2] = ["gedrovit", "capi"];

const MISSING: &str =
    "name the folder of libgedrovit.a in GEDROVIT_LIB_DIR or that of gedrovit.pc in \
    PKG_CONFIG_PATH, or build it in the repository by `make`";

fn main() {
    for name in ["GEDROVIT_LIB_DIR", "PKG_CONFIG_PATH"] {
        println!("cargo:rerun-if-env-changed={name}");
    }
    assert!(
        target("ARCH") == "x86_64" && target("OS") == "linux" && target("POINTER_WIDTH") == "64",
        "gedrovit is built for x86-64 Linux"
    );
    let folders = folders();
    let Some((folder, name)) = find(&folders) else {
        let tried: Vec<_> = folders
            .iter()
            .map(|folder| folder.display().to_string())
            .collect();
        eprintln!(
            "the archive of gedrovit was not found in {}: {MISSING}",
            tried.join(" or ")
        );
        exit(1);
    };
    tell_of_repository();
    println!("cargo:rerun-if-changed={}", archive(folder, name).display());
    println!("cargo:rustc-link-search=native={}", folder.display());
    println!("cargo:rustc-link-lib=static={name}");
}

/// Sets `repository` where the header stands beside this crate, for the tests that read it.
fn tell_of_repository() {
    println!("cargo:rustc-check-cfg=cfg(repository)");
    let header = Path::new(env!("CARGO_MANIFEST_DIR")).join("../include/gedrovit.h");
    if header.is_file() {
        println!("cargo:rerun-if-changed={}", header.display());
        println!("cargo:rustc-cfg=repository");
    }
}

fn target(property: &str) -> String {
    env::var(format!("CARGO_CFG_TARGET_{property}")).unwrap_or_default()
}

fn archive(folder: &Path, name: &str) -> PathBuf {
    folder.join(format!("lib{name}.a"))
}

/// The folders to try. GEDROVIT_LIB_DIR, if set, is the only one.
fn folders() -> Vec<PathBuf> {
    match env::var_os("GEDROVIT_LIB_DIR") {
        Some(folder) => vec![PathBuf::from(folder)],
        None => installed().into_iter().chain([built()]).collect(),
    }
}

/// The folder and the name of the archive.
fn find(folders: &[PathBuf]) -> Option<(&Path, &'static str)> {
    folders.iter().find_map(|folder| {
        let name = NAMES
            .into_iter()
            .find(|name| archive(folder, name).is_file())?;
        Some((folder.as_path(), name))
    })
}

/// The folder that pkg-config gives for this version of the package.
fn installed() -> Option<PathBuf> {
    let wanted = format!("gedrovit = {}", env!("CARGO_PKG_VERSION"));
    let answer = Command::new("pkg-config")
        .args(["--variable=libdir", &wanted])
        .output()
        .ok()?;
    let folder = String::from_utf8(answer.stdout).ok()?;
    if !answer.status.success() {
        return None;
    }
    Path::new(folder.trim()).canonicalize().ok()
}

/// The folder that the repository builds the archive in.
fn built() -> PathBuf {
    Path::new(env!("CARGO_MANIFEST_DIR")).join("../../crates/capi/out")
}
