//! Links the static library of the proved code, from the folder that the
//! environment variable HRAZVANUT_LIB names, and the calls of its header,
//! which a C compiler makes (CC, or `cc`). Without the library the crate
//! still builds, but says that nothing is linked.

use std::path::{Path, PathBuf};
use std::process::Command;

const NAME: &str = "hrazvanut";
const SOURCES: [&str; 2] = ["library.c", "register.c"];
const FLAGS: [&str; 7] = ["-std=c11", "-O2", "-fPIC", "-Wall", "-Wextra", "-Wconversion", "-Werror"];

fn here(path: &str) -> PathBuf {
    Path::new(env!("CARGO_MANIFEST_DIR")).join(path)
}

fn folder() -> PathBuf {
    match std::env::var_os("HRAZVANUT_LIB") {
        Some(folder) => PathBuf::from(folder),
        None => here("../../target/staticlib"),
    }
}

fn run(command: &mut Command) {
    let ended = command.status().unwrap_or_else(|e| panic!("{command:?}: {e}"));
    assert!(ended.success(), "{command:?}: {ended}");
}

/// The calls of the header, as a library for Rust to link.
fn compile_calls() {
    let out = PathBuf::from(std::env::var_os("OUT_DIR").expect("cargo names a folder"));
    let archive = out.join("libcalls.a");
    let _ = std::fs::remove_file(&archive);
    let compiler = std::env::var("CC").unwrap_or("cc".to_string());
    for source in SOURCES {
        let object = out.join(source).with_extension("o");
        run(Command::new(&compiler)
            .args(FLAGS)
            .arg("-I")
            .arg(here("../../include"))
            .arg("-c")
            .arg(here("src").join(source))
            .arg("-o")
            .arg(&object));
        run(Command::new("ar").arg("rcs").arg(&archive).arg(&object));
    }
    println!("cargo:rustc-link-search=native={}", out.display());
    println!("cargo:rustc-link-lib=static=calls");
}

fn main() {
    println!("cargo:rustc-check-cfg=cfg(linked)");
    println!("cargo:rerun-if-env-changed=HRAZVANUT_LIB");
    println!("cargo:rerun-if-env-changed=CC");
    println!("cargo:rerun-if-changed=build.rs");
    for source in SOURCES {
        println!("cargo:rerun-if-changed=src/{source}");
    }
    println!("cargo:rerun-if-changed={}", here("../../include/hrazvanut.h").display());
    if std::env::var_os("CARGO_FEATURE_STUB").is_some() {
        compile_calls();
        println!("cargo:rustc-cfg=linked");
        return;
    }
    let folder = folder();
    let archive = folder.join(format!("lib{NAME}.a"));
    println!("cargo:rerun-if-changed={}", archive.display());
    if archive.exists() {
        compile_calls();
        println!("cargo:rustc-link-search=native={}", folder.display());
        println!("cargo:rustc-link-lib=static={NAME}");
        println!("cargo:rustc-cfg=linked");
    } else {
        println!("cargo:warning={} is missing: built without the library", archive.display());
    }
}
