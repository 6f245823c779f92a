//! Finds the proved library: where GATEWAY_LIB_DIR says, else where pkg-config does if link/install.sh put it there, else where
//! `link/library.sh` leaves it in the repository. The package has the version that the header says.

use std::path::{Path, PathBuf};
use std::process::Command;

fn installed() -> Option<PathBuf> {
    let said = Command::new("pkg-config").args(["--variable=libdir", "gateway"]).output().ok()?;
    let folder = PathBuf::from(String::from_utf8(said.stdout).ok()?.trim());
    (said.status.success() && folder.join("libgateway.a").exists()).then_some(folder)
}

/// The version stands in the header, and a package has to name its own: one of another version is not built.
fn hold_version() {
    let header = Path::new(env!("CARGO_MANIFEST_DIR")).join("../gateway.h");
    println!("cargo:rerun-if-changed={}", header.display());
    let Ok(text) = std::fs::read_to_string(&header) else {
        return; // the package stands by itself
    };
    let said = text.lines().find_map(|line| line.strip_prefix("#define GATEWAY_VERSION ")).map(|word| word.trim_matches('"'));
    let own = env!("CARGO_PKG_VERSION");
    assert!(said == Some(own), "this package is {own}, and link/gateway.h is {said:?}");
}

fn main() {
    hold_version();
    println!("cargo:rerun-if-env-changed=GATEWAY_LIB_DIR");
    let built = Path::new(env!("CARGO_MANIFEST_DIR")).join("../../target/staticlib");
    let folder = match std::env::var_os("GATEWAY_LIB_DIR") {
        Some(folder) => PathBuf::from(folder),
        None if built.join("libgateway.a").exists() => built,
        None => installed().unwrap_or(built),
    };
    let library = folder.join("libgateway.a");
    if !library.exists() {
        println!("cargo:warning={} is not there: `link/library.sh` makes it, and GATEWAY_LIB_DIR names another folder", library.display());
    }
    println!("cargo:rerun-if-changed={}", library.display());
    println!("cargo:rustc-link-search=native={}", folder.display());
}
