//! Links libkagutin.a from the folder KAGUTIN_LIB_DIR (a relative one counts from
//! this package), by default ../../target/staticlib; libgauges.a and libinflow.a from there.

use std::path::Path;

fn main() {
    let folder = std::env::var("KAGUTIN_LIB_DIR").unwrap_or_else(|_| "../../target/staticlib".to_string());
    let folder = Path::new(&std::env::var("CARGO_MANIFEST_DIR").unwrap()).join(folder);
    println!("cargo:rerun-if-env-changed=KAGUTIN_LIB_DIR");
    println!("cargo:rustc-link-search=native={}", folder.display());
    let default = Path::new(&std::env::var("CARGO_MANIFEST_DIR").unwrap()).join("../../target/staticlib");
    println!("cargo:rustc-link-search=native={}", default.display());
    for (name, folder) in [("kagutin", &folder), ("gauges", &default), ("inflow", &default)] {
        let library = folder.join(format!("lib{name}.a"));
        println!("cargo:rerun-if-changed={}", library.display());
        println!("cargo:rustc-link-lib=static={name}");
        assert!(library.is_file(), "no library {}", library.display());
    }
}
