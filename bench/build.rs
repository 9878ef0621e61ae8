//! Tells where the proved libraries lie, and that the benchmark is linked anew
//! once one of them has changed.

use std::env;

/// The libraries, and the features that want them.
const LIBRARIES: [(&str, &str); 2] = [
    ("host", "CARGO_FEATURE_PROVED"),
    ("layered", "CARGO_FEATURE_LAYERED"),
];

fn main() {
    println!("cargo::rerun-if-changed=build.rs");
    for (library, feature) in LIBRARIES {
        if env::var_os(feature).is_some() {
            let folder = format!("{}/../crates/{library}/out", env!("CARGO_MANIFEST_DIR"));
            println!("cargo::rustc-link-search=native={folder}");
            println!("cargo::rerun-if-changed={folder}/lib{library}.a");
        }
    }
}
