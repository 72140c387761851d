//! Finds libitchsnap: in the directory that `ITCHSNAP_LIB_DIR` names, in `release/` of the checkout, or through pkg-config.

use std::env;
use std::path::Path;
use std::process::Command;

fn main() {
    println!("cargo::rerun-if-changed=build.rs");
    println!("cargo::rerun-if-env-changed=ITCHSNAP_LIB_DIR");
    println!("cargo::rerun-if-env-changed=PKG_CONFIG_PATH");
    if let Some(folder) = env::var_os("ITCHSNAP_LIB_DIR") {
        let folder = Path::new(&folder);
        if !link_from(folder) {
            println!("cargo::error=ITCHSNAP_LIB_DIR is {}, where there is no libitchsnap", folder.display());
        }
        return;
    }
    let release = Path::new(env!("CARGO_MANIFEST_DIR")).join("../../release");
    if !link_from(&release) && !link_by_pkg_config() {
        println!("cargo::error=no libitchsnap: name its folder in ITCHSNAP_LIB_DIR, or install it so that pkg-config finds itchsnap");
    }
}

/// Links the static library in a directory, or else the shared one. Returns whether there is one.
fn link_from(folder: &Path) -> bool {
    for (file, kind) in [("libitchsnap.a", "static"), ("libitchsnap.so", "dylib")] {
        let library = folder.join(file);
        if library.exists() {
            println!("cargo::rerun-if-changed={}", library.display());
            println!("cargo::rustc-link-search=native={}", folder.display());
            println!("cargo::rustc-link-lib={kind}=itchsnap");
            return true;
        }
    }
    false
}

/// Links the installed library. Returns whether pkg-config knows it.
fn link_by_pkg_config() -> bool {
    let program = env::var_os("PKG_CONFIG").unwrap_or_else(|| "pkg-config".into());
    let Ok(said) = Command::new(program).args(["--libs", "itchsnap"]).output() else {
        return false;
    };
    for word in String::from_utf8_lossy(&said.stdout).split_whitespace() {
        if let Some(folder) = word.strip_prefix("-L") {
            println!("cargo::rustc-link-search=native={folder}");
        } else if let Some(name) = word.strip_prefix("-l") {
            println!("cargo::rustc-link-lib={name}");
        }
    }
    said.status.success()
}
