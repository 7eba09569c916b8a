//! Links the proved archives of the C boundary, in the folder that CAPI_DIR
//! names, otherwise where `tools/build` puts them.

use std::env;
use std::path::PathBuf;

/// `tools/install` has the same list.
const ARCHIVES: [&str; 5] = [
    "capi_packet",
    "capi_depacketizer",
    "capi_parameters",
    "capi_file",
    "capi_egress",
];

fn main() {
    println!("cargo:rerun-if-env-changed=CAPI_DIR");
    let here = PathBuf::from(env::var_os("CARGO_MANIFEST_DIR").unwrap_or_default());
    let folder =
        env::var_os("CAPI_DIR").map_or(PathBuf::from("../target/staticlib"), PathBuf::from);
    let folder = here.join(folder);
    println!("cargo:rustc-link-search=native={}", folder.display());
    for name in ARCHIVES {
        let archive = folder.join(format!("lib{name}.a"));
        let path = archive.display();
        println!("cargo:rerun-if-changed={path}");
        if !archive.is_file() {
            println!("cargo:warning=no archive {path}: run `tools/build`, or set CAPI_DIR");
        }
        println!("cargo:rustc-link-lib=static={name}");
    }
    println!("cargo:rustc-env=CAPI_FOLDER={}", folder.display());
    println!("cargo:rustc-env=CAPI_ARCHIVES={}", ARCHIVES.join(" "));
}
