//! Links the archive that `make-archive` makes; if it is not up to date, the Rattle kit (`rt`) is needed. With
//! JUFFERDEEG_ARCHIVE the archive is that file, and nothing is made.
use std::path::{Path, PathBuf};
use std::process::Command;
use std::{env, fs};

fn var(name: &str) -> String {
    env::var(name).unwrap_or_else(|e| panic!("{name}: {e}"))
}

fn made(top: &Path) -> PathBuf {
    let target = var("CARGO_CFG_TARGET_ARCH");
    assert!(
        ["x86_64", "aarch64"].contains(&&target[..]),
        "make-archive makes no archive for {target}: set JUFFERDEEG_ARCHIVE"
    );
    for source in ["crates.txt", "make-archive"] {
        println!("cargo:rerun-if-changed={}", top.join(source).display());
    }
    // the sources of the crates, and not what rt makes beside them
    let crates = fs::read_dir(top.join("crates")).expect("the folder of the crates").flatten();
    let parts = crates.flat_map(|of| ["src", "specs", "proofs"].map(|part| of.path().join(part)));
    for part in parts.filter(|part| part.exists()) {
        println!("cargo:rerun-if-changed={}", part.display());
    }
    let script = top.join("make-archive");
    let status = Command::new(&script).status().unwrap_or_else(|e| panic!("{}: {e}", script.display()));
    assert!(status.success(), "{} has failed", script.display());
    top.join("target").join(target).join("libjufferdeeg.a")
}

fn main() {
    println!("cargo:rerun-if-env-changed=JUFFERDEEG_ARCHIVE");
    println!("cargo:rerun-if-changed=build.rs");
    let archive = match env::var_os("JUFFERDEEG_ARCHIVE") {
        Some(given) => {
            println!("cargo:rerun-if-changed={}", Path::new(&given).display());
            PathBuf::from(given)
        }
        None => made(&Path::new(&var("CARGO_MANIFEST_DIR")).join("../..")),
    };
    // a copy, so that nothing is lost to this build if the archive is removed or made anew
    let out = var("OUT_DIR");
    let copy = Path::new(&out).join("libjufferdeeg.a");
    fs::copy(&archive, copy).unwrap_or_else(|e| panic!("{}: {e}", archive.display()));
    println!("cargo:rustc-link-search=native={out}");
    println!("cargo:rustc-link-lib=static=jufferdeeg");
}
