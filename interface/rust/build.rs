//! libpkder.a is in the folder that PKDER_LIB_DIR names, else where pkg-config says.
use std::process::Command;

fn main() {
    println!("cargo:rerun-if-env-changed=PKDER_LIB_DIR");
    println!("cargo:rerun-if-env-changed=PKG_CONFIG_PATH");
    let folder = std::env::var("PKDER_LIB_DIR").ok().or_else(told_by_pkg_config);
    if let Some(folder) = folder {
        println!("cargo:rustc-link-search=native={folder}");
        println!("cargo:rerun-if-changed={folder}/libpkder.a");
    }
    println!("cargo:rustc-link-lib=static=pkder");
}

fn told_by_pkg_config() -> Option<String> {
    let said = Command::new("pkg-config").args(["--variable=libdir", "pkder"]).output().ok()?;
    let folder = String::from_utf8(said.stdout).ok()?;
    said.status.success().then(|| folder.trim().to_owned())
}
