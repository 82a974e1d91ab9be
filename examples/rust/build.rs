//! Links the archives.
//!
//! DAIDALUS_ARCHIVES may name a folder that has libdaa_c.a and libdaa_toml.a; without it those that the repository keeps for
//! the processor are taken.
use std::path::PathBuf;

fn variable(name: &str) -> String {
    std::env::var(name).unwrap_or_else(|_| panic!("cargo sets {name}"))
}

fn main() {
    let folder = match std::env::var("DAIDALUS_ARCHIVES") {
        Ok(folder) => PathBuf::from(folder),
        Err(_) => {
            let processor = variable("CARGO_CFG_TARGET_ARCH").replace("x86_64", "x86-64");
            PathBuf::from(variable("CARGO_MANIFEST_DIR")).join("../../built").join(processor)
        }
    };
    let libraries = ["daa_c", "daa_toml"];
    for file in libraries.map(|library| format!("lib{library}.a")) {
        assert!(folder.join(&file).exists(), "there is no {file} in {folder:?}: the repository keeps those of built/");
    }
    println!("cargo:rustc-link-search=native={}", folder.display());
    println!("cargo:rerun-if-changed={}", folder.display());
    for library in libraries {
        println!("cargo:rustc-link-lib=static={library}");
    }
    println!("cargo:rerun-if-env-changed=DAIDALUS_ARCHIVES");
}
