//! Finds the archive with its headers: in the folder `PSCI_LIB`, or where pkg-config has `psci`.
use std::{env, fs, process::Command};

/// The folder that pkg-config names by this option, behind the `-L` or `-I`.
fn asked(option: &str) -> String {
    let mut command = Command::new("pkg-config");
    command.env("PKG_CONFIG_ALLOW_SYSTEM_LIBS", "1").env("PKG_CONFIG_ALLOW_SYSTEM_CFLAGS", "1");
    let said = command.args([option, "psci"]).output().map(|it| it.stdout).unwrap_or_default();
    let text = String::from_utf8_lossy(&said);
    text.trim().get(2..).expect("PSCI_LIB names no folder, and pkg-config has no package psci").into()
}

fn main() {
    let given = env::var("PSCI_LIB").ok();
    let library = given.clone().unwrap_or_else(|| asked("--libs-only-L"));
    let headers = given.unwrap_or_else(|| asked("--cflags-only-I"));
    let archive = format!("{library}/libpsci_ffi.a");
    let bytes = fs::read(&archive).unwrap_or_else(|fault| panic!("{archive}: {fault}"));
    println!("cargo:rerun-if-env-changed=PSCI_LIB\ncargo:rerun-if-changed={archive}");
    println!("cargo:rustc-link-search=native={library}\ncargo:rustc-link-lib=static=psci_ffi");
    println!("cargo:rustc-env=PSCI_HEADERS={headers}");
    println!("cargo:rustc-env=PSCI_IS_UNPROVED={}", bytes.windows(14).any(|it| it == b"psci_unproved\0"));
}
