//! Links libpump.a, from the folder that `LOBZHINAR_LIBRARY` names.
//!
//! Without that variable there is nothing to link. `cargo check`, `cargo clippy` and `cargo doc` do not need it,
//! and a build script can't tell them from `cargo build`: so src/link.rs stops a build, with a sentence.

use std::path::Path;

const ARCHIVE: &str = "libpump.a";

fn main() {
    println!("cargo::rerun-if-env-changed=LOBZHINAR_LIBRARY");
    let Some(folder) = std::env::var_os("LOBZHINAR_LIBRARY") else {
        println!("cargo::rustc-cfg=library_missing");
        return;
    };
    let folder = Path::new(&folder).display();
    let archive = format!("{folder}/{ARCHIVE}");
    println!("cargo::rerun-if-changed={archive}");
    assert!(
        Path::new(&archive).is_file(),
        "The variable LOBZHINAR_LIBRARY names the folder {folder}, which has no {ARCHIVE}. Let it name the folder of \
         the library: `tools/library` makes target/library/MACHINE/{ARCHIVE}."
    );
    println!("cargo::rustc-link-search=native={folder}");
    println!("cargo::rustc-link-lib=static=pump");
}
