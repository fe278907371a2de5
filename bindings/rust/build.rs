//! Links the proved library, `libwavpack_stereo.a`, from the folder that WAVPACK_STEREO_FOLDER names by an
//! absolute path, or from where `tools/staticlib` puts it.
use std::env;
use std::path::PathBuf;

fn main() {
    println!("cargo::rerun-if-env-changed=WAVPACK_STEREO_FOLDER");
    let here = PathBuf::from(env::var("CARGO_MANIFEST_DIR").unwrap());
    let folder = match env::var("WAVPACK_STEREO_FOLDER") {
        Ok(named) => PathBuf::from(named),
        Err(_) => here.join("../../target/staticlib"),
    };
    let archive = folder.join("libwavpack_stereo.a");
    if !archive.exists() {
        println!(
            "cargo::warning={} is missing: `tools/staticlib` writes it into target/staticlib of \
             the repository; set WAVPACK_STEREO_FOLDER to the absolute path of another folder that holds it",
            archive.display()
        );
    }
    println!("cargo::rerun-if-changed={}", archive.display());
    println!("cargo::rustc-link-search=native={}", folder.display());
    println!("cargo::rustc-link-lib=static=wavpack_stereo");
}
