//! Links `libexports.a`, the proved library, from `../crates/exports/out` or from the directory in
//! FASUNQIR_LIB_DIR. Without the archive the library compiles, and nothing can be linked. Where
//! FASUNQIR_OTHER_DIR names the directory of another version's archive, that is linked as well, for
//! the benchmark `versions`.

use std::env;
use std::path::{Path, PathBuf};
use std::process::Command;

/// What the versions export; the other's names get `other_` before them. An older version may lack
/// the last, which objcopy then passes over.
const EXPORTED: [&str; 6] = [
    "fasunqir_check",
    "fasunqir_table",
    "fasunqir_translate",
    "fasunqir_read_text",
    "fasunqir_open",
    "fasunqir_feed",
];

/// Copies the archive with every function at the start of a line of the processor's cache, and its
/// exported functions under other names. What a check costs then doesn't depend on what else is
/// linked (docs/PERFORMANCE.md).
fn align(archive: &Path, aligned: &Path, prefix: &str) -> bool {
    let mut command = Command::new("objcopy");
    command.args(["--set-section-alignment", ".text*=64"]);
    if !prefix.is_empty() {
        for name in EXPORTED {
            command.arg("--redefine-sym").arg(format!("{name}={prefix}{name}"));
        }
    }
    command.args([archive, aligned]).status().is_ok_and(|status| status.success())
}

fn main() {
    let own = PathBuf::from(env::var_os("OUT_DIR").unwrap());
    println!("cargo:rerun-if-env-changed=FASUNQIR_LIB_DIR");
    println!("cargo:rerun-if-env-changed=FASUNQIR_OTHER_DIR");
    let directory = match env::var_os("FASUNQIR_LIB_DIR") {
        Some(directory) => PathBuf::from(directory),
        None => {
            PathBuf::from(env::var_os("CARGO_MANIFEST_DIR").unwrap()).join("../crates/exports/out")
        }
    };
    let archive = directory.join("libexports.a");
    println!("cargo:rerun-if-changed={}", archive.display());
    if !archive.exists() {
        println!("cargo:warning=no {}: `rt lib` in crates/exports makes it", archive.display());
        return;
    }
    let aligned = align(&archive, &own.join("libexports.a"), "");
    println!(
        "cargo:rustc-link-search=native={}",
        if aligned { own.display() } else { directory.display() }
    );
    println!("cargo:rustc-link-lib=static=exports");
    if let Some(other) = env::var_os("FASUNQIR_OTHER_DIR") {
        let archive = PathBuf::from(other).join("libexports.a");
        println!("cargo:rerun-if-changed={}", archive.display());
        assert!(
            align(&archive, &own.join("libother.a"), "other_"),
            "no copy of {} by objcopy",
            archive.display()
        );
        println!("cargo:rustc-link-search=native={}", own.display());
        println!("cargo:rustc-link-lib=static=other");
    }
}
