//! Finds the Rust source to compare with, the static library to compare, and libcmph where it is
//! installed.

use std::env;
use std::fs;
use std::path::{Path, PathBuf};

const MODULE: &str = "crates/rbitcoin-store/src/bdz.rs";
const HEADERS: &str = "/usr/include";

fn main() {
    println!("cargo:rustc-check-cfg=cfg(source_at_hand)");
    println!("cargo:rerun-if-changed=build.rs");
    name_source(&place("BDZ_SRC", "../../shared/docs/src").join(MODULE));
    link_library(&place("BDZ_LIB", "../crates/bdz_oracle/out/libbdz_oracle.a"));
    link_cmph();
}

/// What the environment names, or else the usual place, seen from this crate's folder.
fn place(variable: &str, usual: &str) -> PathBuf {
    println!("cargo:rerun-if-env-changed={variable}");
    let here = PathBuf::from(env::var_os("CARGO_MANIFEST_DIR").expect("cargo names the folder"));
    match env::var_os(variable) {
        Some(named) if !named.is_empty() => here.join(named),
        _ => here.join(usual),
    }
}

/// Writes the one line that takes the module in by its path, so that it is built unchanged and
/// never copied. Without the source the crate still builds, and its programs say so when they run.
fn name_source(module: &Path) {
    println!("cargo:rerun-if-changed={}", module.display());
    let Ok(module) = module.canonicalize() else {
        return;
    };
    let module = module.to_str().expect("the path of the source is UTF-8");
    let out = PathBuf::from(env::var_os("OUT_DIR").expect("cargo names the folder"));
    fs::write(
        out.join("source.rs"),
        format!("#[path = {module:?}]\npub mod bdz;\n"),
    )
    .expect("the output folder can be written");
    println!("cargo:rustc-cfg=source_at_hand");
}

fn link_library(library: &Path) {
    println!("cargo:rerun-if-changed={}", library.display());
    let Ok(found) = library.canonicalize() else {
        println!(
            "cargo::error=there is no static library at {}: `make compare` builds it",
            library.display()
        );
        return;
    };
    let folder = found.parent().expect("a file stands in a folder");
    let name = found.file_name().expect("a file has a name");
    println!("cargo:rustc-link-search=native={}", folder.display());
    println!(
        "cargo:rustc-link-lib=static:+verbatim={}",
        name.to_string_lossy()
    );
}

/// Only the program that measures libcmph links it, so that nothing else needs it. The folder is
/// watched and not the header: cargo builds all anew each time while a watched file is missing.
fn link_cmph() {
    println!("cargo:rustc-check-cfg=cfg(cmph_at_hand)");
    println!("cargo:rerun-if-changed={HEADERS}");
    if Path::new(HEADERS).join("cmph.h").exists() {
        println!("cargo:rustc-cfg=cmph_at_hand");
        println!("cargo:rustc-link-arg-bin=bench_cmph=-lcmph");
    }
}
