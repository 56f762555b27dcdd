//! Takes the original's files by path, byte for byte: `#[path]` wants a literal, so the lines are
//! written here. With LAMBSPOOL_ARCHIVE set, links the native host as well.
use std::{env, fs, path::PathBuf, process::exit};

const TAKEN: [&str; 7] = ["batch", "config", "error", "graph", "storage", "storage_io", "stream"];
const DEFAULT: &str = "../../shared/docs/src/src";

fn main() {
    println!("cargo::rerun-if-changed=build.rs");
    println!("cargo::rerun-if-env-changed=VECNOOK_SRC");
    println!("cargo::rerun-if-env-changed=LAMBSPOOL_ARCHIVE");
    println!("cargo::rustc-check-cfg=cfg(native_host)");
    write_modules();
    link_native_host();
}

fn write_modules() {
    let folder = documents();
    let mut lines = String::new();
    for name in TAKEN {
        let file = folder.join(name).with_extension("rs");
        if !file.is_file() {
            eprintln!(
                "the original's {name}.rs is not at {}: put the documents there, or name the \
                 folder that holds {} in VECNOOK_SRC",
                file.display(),
                TAKEN.map(|name| format!("{name}.rs")).join(", ")
            );
            exit(1);
        }
        println!("cargo::rerun-if-changed={}", file.display());
        lines += &format!("#[allow(dead_code)]\n#[path = {:?}]\nmod {name};\n", file.display().to_string());
    }
    let out = PathBuf::from(env::var("OUT_DIR").unwrap()).join("vecnook.rs");
    fs::write(out, lines).unwrap();
}

fn documents() -> PathBuf {
    if let Some(named) = env::var_os("VECNOOK_SRC") {
        let named = PathBuf::from(named);
        return named.canonicalize().unwrap_or(named);
    }
    let default = PathBuf::from(env::var("CARGO_MANIFEST_DIR").unwrap()).join(DEFAULT);
    default.canonicalize().unwrap_or(default)
}

/// LAMBSPOOL_ARCHIVE names a static archive that has `answer_request` (src/native.rs).
fn link_native_host() {
    let Some(archive) = env::var_os("LAMBSPOOL_ARCHIVE") else { return };
    println!("cargo::rustc-cfg=native_host");
    println!("cargo::rerun-if-changed={}", archive.to_string_lossy());
    println!("cargo::rustc-link-arg={}", archive.to_string_lossy());
}
