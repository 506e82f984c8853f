//! Links a second archive beside the engine's where LESSON_BEFORE_DIR names its folder, with
//! `before_` for the `lesson_` of its calls; the code sees it as `cfg(before)`.

use std::env;
use std::path::{Path, PathBuf};
use std::process::Command;

fn main() {
    println!("cargo:rustc-check-cfg=cfg(before)");
    println!("cargo:rerun-if-env-changed=LESSON_BEFORE_DIR");
    let Some(folder) = env::var_os("LESSON_BEFORE_DIR") else {
        println!("cargo:rerun-if-changed=build.rs");
        return;
    };
    let archive = Path::new(&folder).join("liblesson.a");
    println!("cargo:rerun-if-changed={}", archive.display());
    let out = PathBuf::from(env::var_os("OUT_DIR").expect("cargo sets it"));
    let renamed = ["check", "test", "list", "one", "place", "nearest", "count"]
        .map(|call| format!("--redefine-sym=lesson_{call}=before_{call}"));
    let status = Command::new("objcopy")
        .args(renamed)
        .args([&archive, &out.join("libbefore.a")])
        .status()
        .expect("objcopy runs");
    assert!(status.success(), "objcopy of {}", archive.display());
    println!("cargo:rustc-link-search=native={}", out.display());
    println!("cargo:rustc-link-lib=static=before");
    println!("cargo:rustc-cfg=before");
}
