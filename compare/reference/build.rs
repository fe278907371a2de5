//! Writes the module declarations that compile the published files from where they lie.
//!
//! The folder is the one that WAVPACK_REFERENCE names, or `shared/docs/src/src` beside the
//! repository.
use std::path::PathBuf;
use std::{env, fs};

/// The published files that the comparison needs, in the order in which they use each other.
const MODULES: [&str; 7] =
    ["logpack", "decorrelation", "entropy", "samples", "packed_samples", "crc", "int32"];

fn main() {
    println!("cargo::rerun-if-env-changed=WAVPACK_REFERENCE");
    let here = PathBuf::from(env::var("CARGO_MANIFEST_DIR").unwrap());
    let folder = match env::var("WAVPACK_REFERENCE") {
        Ok(named) => PathBuf::from(named),
        Err(_) => here.join("../../../shared/docs/src/src"),
    };
    let mut declarations = String::new();
    for module in MODULES {
        let file = folder.join(format!("{module}.rs"));
        let file = file.canonicalize().unwrap_or_else(|e| panic!("{}: {e}", file.display()));
        println!("cargo::rerun-if-changed={}", file.display());
        declarations += &format!("#[path = {file:?}]\npub mod {module};\n");
    }
    let out = PathBuf::from(env::var("OUT_DIR").unwrap()).join("modules.rs");
    fs::write(out, declarations).unwrap();
}
