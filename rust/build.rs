//! Finds the archive: that of the tree around this crate, or else the installed one, by pkg-config.

use std::env;
use std::path::{Path, PathBuf};
use std::process::Command;

const ARCHIVE: &str = "libstation.a";

fn main() {
    if variable("CARGO_CFG_TARGET_ARCH") != "x86_64" {
        println!("cargo:warning={ARCHIVE} is for x86-64 alone: nothing that is built for another processor links");
    }
    for name in ["PKG_CONFIG", "PKG_CONFIG_PATH", "PKG_CONFIG_LIBDIR"] {
        println!("cargo:rerun-if-env-changed={name}");
    }
    println!("cargo:rerun-if-changed=build.rs");
    let tree = Path::new(&variable("CARGO_MANIFEST_DIR")).join("..");
    let built = tree.join("crates/station/out");
    // while a file is missing cargo runs this for every build; in the tree an archive that is built later must be taken
    if tree.join("include/station.h").exists() || built.join(ARCHIVE).exists() {
        println!("cargo:rerun-if-changed={}", built.join(ARCHIVE).display());
    }
    let folder = if built.join(ARCHIVE).exists() {
        built
    } else {
        installed()
    };
    println!("cargo:rustc-link-search=native={}", folder.display());
    println!("cargo:rustc-link-lib=static=station");
}

/// A variable that cargo sets.
fn variable(name: &str) -> String {
    env::var(name).unwrap_or_else(|e| panic!("{name}: {e}"))
}

/// The folder of the archive that pkg-config knows.
fn installed() -> PathBuf {
    let version = variable("CARGO_PKG_VERSION");
    let program = env::var_os("PKG_CONFIG").unwrap_or_else(|| "pkg-config".into());
    let said = Command::new(program)
        .args(["--variable=libdir", &format!("station >= {version}")])
        .output();
    if let Ok(said) = said {
        let folder = PathBuf::from(String::from_utf8_lossy(&said.stdout).trim());
        let archive = folder.join(ARCHIVE);
        if said.status.success() && archive.exists() {
            println!("cargo:rerun-if-changed={}", archive.display());
            return folder;
        }
    }
    panic!(
        "{ARCHIVE} of version {version} or later isn't found. In the library's tree run './install PREFIX' and set \
         PKG_CONFIG_PATH=PREFIX/lib/pkgconfig; or, where this crate stands in that tree, run './build archive' there."
    )
}
