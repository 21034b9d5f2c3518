//! Links libfusion_c.a from the folder in FUSION_LIB_DIR.

use std::env;
use std::path::PathBuf;

fn main() {
    println!("cargo:rerun-if-changed=build.rs");
    println!("cargo:rerun-if-env-changed=FUSION_LIB_DIR");
    let folder = PathBuf::from(
        env::var_os("FUSION_LIB_DIR").expect("FUSION_LIB_DIR: the folder of libfusion_c.a"),
    );
    println!(
        "cargo:rerun-if-changed={}",
        folder.join("libfusion_c.a").display()
    );
    println!("cargo:rustc-link-search=native={}", folder.display());
    println!("cargo:rustc-link-lib=static=fusion_c");
}
