//! Links libapa.a: of the folder that APA_LIB_DIR names, of this checkout, where c/build makes it, or where pkg-config has apa.

use std::path::Path;
use std::process::Command;

/// The folder that pkg-config names.
fn installed() -> Option<String> {
    let said = Command::new("pkg-config").args(["--variable=libdir", "apa"]).output().ok()?;
    let folder = String::from_utf8(said.stdout).ok()?.trim().to_string();
    said.status.success().then_some(folder)
}

fn main() {
    println!("cargo:rerun-if-env-changed=APA_LIB_DIR");
    println!("cargo:rerun-if-env-changed=PKG_CONFIG_PATH");
    let here = std::env::var("CARGO_MANIFEST_DIR").expect("cargo sets it");
    let folders = [std::env::var("APA_LIB_DIR").ok(), Some(format!("{here}/../out")), installed()];
    let folder = folders.into_iter().flatten().find(|folder| Path::new(folder).join("libapa.a").is_file());
    let folder = folder.expect("libapa.a is neither where APA_LIB_DIR says, nor in ../out, where c/build makes it, nor installed");
    println!("cargo:rustc-link-search=native={folder}");
    println!("cargo:rustc-link-lib=static=apa");
    println!("cargo:rerun-if-changed={folder}/libapa.a");
}
