//! Names str0m's files as modules: those of the folder `STR0M_DIR`, a checkout of str0m, unchanged.

use std::path::{Path, PathBuf};
use std::{env, fs};

/// The modules that are taken, each a file of `src/packet`.
const MODULES: [&str; 6] = [
    "h264",
    "h264_profile",
    "h265",
    "h265_profile",
    "h266",
    "h266_profile",
];

fn main() {
    println!("cargo:rerun-if-env-changed=STR0M_DIR");
    // A feature of str0m's that its files ask for, and that isn't on here.
    println!("cargo:rustc-check-cfg=cfg(feature, values(\"drv\"))");
    let checkout = env::var_os("STR0M_DIR")
        .map(PathBuf::from)
        .expect("STR0M_DIR names the folder of str0m");
    let named: String = MODULES.iter().map(|name| module(&checkout, name)).collect();
    let out = env::var_os("OUT_DIR").expect("cargo sets it");
    fs::write(Path::new(&out).join("str0m.rs"), named).expect("a file can be written");
}

/// A module whose text is str0m's file of this name.
fn module(checkout: &Path, name: &str) -> String {
    let file = checkout.join("src/packet").join(name).with_extension("rs");
    println!("cargo:rerun-if-changed={}", file.display());
    assert!(file.is_file(), "{} is missing", file.display());
    format!("#[path = {file:?}]\n#[allow(dead_code, unused, clippy::all)]\npub mod {name};\n")
}
