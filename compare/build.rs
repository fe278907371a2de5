//! With the feature `before`, links an earlier archive, `libwavpack_stereo_before.a`, from the folder that
//! WAVPACK_STEREO_BEFORE names by an absolute path. It is made of an earlier `libwavpack_stereo.a`, with two
//! names that are seen from outside, so that none of its names meets one of today's archive:
//!
//! ```text
//! objcopy --redefine-sym wv_read=before_wv_read --keep-global-symbol=before_wv_read \
//!     --redefine-sym wv_word=before_wv_word --keep-global-symbol=before_wv_word \
//!     OLD/libwavpack_stereo.a FOLDER/libwavpack_stereo_before.a
//! ```
use std::env;
use std::path::PathBuf;

fn main() {
    println!("cargo::rerun-if-env-changed=WAVPACK_STEREO_BEFORE");
    if env::var_os("CARGO_FEATURE_BEFORE").is_none() {
        return;
    }
    let folder = env::var("WAVPACK_STEREO_BEFORE")
        .expect("WAVPACK_STEREO_BEFORE names the folder of libwavpack_stereo_before.a");
    let archive = PathBuf::from(&folder).join("libwavpack_stereo_before.a");
    println!("cargo::rerun-if-changed={}", archive.display());
    println!("cargo::rustc-link-search=native={folder}");
    println!("cargo::rustc-link-lib=static=wavpack_stereo_before");
}
