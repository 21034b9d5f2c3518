//! Links the product's archive when the feature `product` is on.

use std::env;
use std::path::PathBuf;

fn main() {
    println!("cargo:rerun-if-changed=build.rs");
    println!("cargo:rerun-if-env-changed=FUSION_LIB_DIR");
    if env::var_os("CARGO_FEATURE_PRODUCT").is_none() {
        return;
    }
    let folder = PathBuf::from(
        env::var_os("FUSION_LIB_DIR")
            .expect("feature `product` needs FUSION_LIB_DIR, the folder of libfusion_c.a"),
    );
    let archive = folder.join("libfusion_c.a");
    assert!(archive.is_file(), "there is no file {}", archive.display());
    println!("cargo:rerun-if-changed={}", archive.display());
    println!("cargo:rustc-link-search=native={}", folder.display());
    println!("cargo:rustc-link-lib=static=fusion_c");
}
