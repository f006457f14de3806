//! Links `libhejmirov.a`, from the folder that `HEJMIROV_LIB_DIR` names or else from where
//! `tools/archive` writes it in this repository.

use std::env;
use std::path::PathBuf;

fn variable(name: &str) -> String {
    env::var(name).unwrap_or_default()
}

fn main() {
    println!("cargo::rerun-if-env-changed=HEJMIROV_LIB_DIR");
    let machine = (
        variable("CARGO_CFG_TARGET_ARCH"),
        variable("CARGO_CFG_TARGET_OS"),
    );
    if (machine.0.as_str(), machine.1.as_str()) != ("x86_64", "linux") {
        let target = variable("TARGET");
        println!("cargo::error=libhejmirov.a is for x86-64 Linux, and this build is for {target}");
        return;
    }
    let folder = match env::var_os("HEJMIROV_LIB_DIR") {
        Some(folder) => PathBuf::from(folder),
        None => PathBuf::from(variable("CARGO_MANIFEST_DIR")).join("../../target/staticlib"),
    };
    let archive = folder.join("libhejmirov.a");
    println!("cargo::rerun-if-changed={}", archive.display());
    if !archive.is_file() {
        println!(
            "cargo::error=there is no {}: run `tools/archive`, or name the archive's folder in HEJMIROV_LIB_DIR",
            archive.display()
        );
        return;
    }
    println!("cargo::rustc-link-search=native={}", folder.display());
    println!("cargo::rustc-link-lib=static=hejmirov");
}
