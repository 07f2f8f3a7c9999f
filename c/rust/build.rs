//! Where libkcas lies: where KCAS_LIB_DIR says, or where this clone's tools/c/build.sh puts it, or where pkg-config finds an installed one. The
//! static library is taken where it is there, else the shared one.
use std::path::{Path, PathBuf};
use std::process::Command;

fn installed() -> Option<PathBuf> {
    let said = Command::new("pkg-config")
        .args(["--variable=libdir", "kcas"])
        .output()
        .ok()?;
    let folder = String::from_utf8(said.stdout).ok()?;
    said.status.success().then(|| PathBuf::from(folder.trim()))
}

fn main() {
    println!("cargo:rerun-if-env-changed=KCAS_LIB_DIR");
    println!("cargo:rerun-if-env-changed=PKG_CONFIG_PATH");
    let built = Path::new(env!("CARGO_MANIFEST_DIR")).join("../../out/c");
    let folder = match std::env::var_os("KCAS_LIB_DIR") {
        Some(folder) => PathBuf::from(folder),
        None if built.join("libkcas.a").exists() => built,
        None => installed()
            .expect("libkcas: set KCAS_LIB_DIR to its folder, or have pkg-config find it"),
    };
    let archive = folder.join("libkcas.a");
    println!("cargo:rustc-link-search=native={}", folder.display());
    println!(
        "cargo:rustc-link-lib={}=kcas",
        if archive.exists() { "static" } else { "dylib" }
    );
    println!("cargo:rerun-if-changed={}", archive.display());
}
