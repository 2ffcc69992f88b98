//! Links `libh26x.a`: the one in the folder that `H26X_LIB_DIR` names, else the one for the target that is
//! committed in `bindings/recorded`.

use std::env;
use std::path::PathBuf;

fn main() {
    println!("cargo::rerun-if-changed=build.rs");
    println!("cargo::rerun-if-env-changed=H26X_LIB_DIR");
    match library_folder() {
        Ok(folder) => {
            println!("cargo::rerun-if-changed={}/libh26x.a", folder.display());
            println!("cargo::rustc-link-search=native={}", folder.display());
            println!("cargo::rustc-link-lib=static=h26x");
        }
        Err(what_to_do) => println!("cargo::error={what_to_do}"),
    }
}

/// The folder of the library that is to be linked, or what to do where there is none.
fn library_folder() -> Result<PathBuf, String> {
    let named = env::var_os("H26X_LIB_DIR").filter(|it| !it.is_empty());
    if let Some(folder) = named.map(PathBuf::from) {
        if folder.is_absolute() && folder.join("libh26x.a").is_file() {
            return Ok(folder);
        }
        return Err(format!(
            "H26X_LIB_DIR is {}: let it name the folder of a libh26x.a by its absolute path",
            folder.display()
        ));
    }
    let [arch, os, environment] = ["ARCH", "OS", "ENV"].map(of_target);
    let target = format!("{arch}-unknown-{os}-{environment}");
    let package = env::var_os("CARGO_MANIFEST_DIR").expect("cargo sets it");
    let folder = PathBuf::from(package)
        .join("../../../bindings/recorded")
        .join(&target);
    if folder.join("libh26x.a").is_file() {
        return Ok(folder);
    }
    Err(format!(
        "no libh26x.a for {target} is committed: build one, and let H26X_LIB_DIR name its folder"
    ))
}

/// What cargo says of the target under this word.
fn of_target(word: &str) -> String {
    env::var(format!("CARGO_CFG_TARGET_{word}")).unwrap_or_default()
}
