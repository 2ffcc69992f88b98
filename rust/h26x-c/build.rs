//! The target, of which the library tells, and the name by which programs look for the shared library, where libraries
//! have such.

use std::env::var;

fn main() {
    println!("cargo::rerun-if-changed=build.rs");
    println!(
        "cargo::rustc-env=H26X_TARGET={}",
        var("TARGET").unwrap_or_default()
    );
    let os = var("CARGO_CFG_TARGET_OS").unwrap_or_default();
    let major = var("CARGO_PKG_VERSION_MAJOR").unwrap_or_default();
    if [
        "linux",
        "android",
        "freebsd",
        "netbsd",
        "openbsd",
        "dragonfly",
    ]
    .contains(&os.as_str())
    {
        println!("cargo::rustc-cdylib-link-arg=-Wl,-soname,libh26x.so.{major}");
    }
}
