//! Links the archive that `bash tests/build` leaves in `target/staticlib`. LESSON_ARCHIVE_DIR names another folder for it.

use std::env;
use std::path::{Path, PathBuf};

fn main() {
    println!("cargo:rerun-if-env-changed=LESSON_ARCHIVE_DIR");
    let folder = match env::var_os("LESSON_ARCHIVE_DIR") {
        Some(named) => PathBuf::from(named),
        None => Path::new(&env::var_os("CARGO_MANIFEST_DIR").expect("cargo sets it"))
            .join("../../target/staticlib"),
    };
    let archive = folder.join("liblesson.a");
    assert!(
        archive.is_file(),
        "{} is missing: run `bash tests/build` at the root of the repository",
        archive.display()
    );
    println!("cargo:rerun-if-changed={}", archive.display());
    println!("cargo:rustc-link-search=native={}", folder.display());
    println!("cargo:rustc-link-lib=static=lesson");
}
