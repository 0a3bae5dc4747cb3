//! Links the proved static library: from `THALLUSWEB_LIB_DIR`, or from where `tests/native-lib` leaves it in this repository.
//!
//! Without the library nothing fails here, since documentation and `cargo check` need none: a warning says how to get it, and what has to
//! be linked fails in the compiler, which then finds no native library `thallusweb`.

use std::env;
use std::path::PathBuf;

fn main() {
    println!("cargo:rerun-if-env-changed=THALLUSWEB_LIB_DIR");
    println!("cargo:rerun-if-env-changed=DOCS_RS");
    let folder = match env::var_os("THALLUSWEB_LIB_DIR") {
        Some(folder) => PathBuf::from(folder),
        None => PathBuf::from(concat!(env!("CARGO_MANIFEST_DIR"), "/../../target/native")),
    };
    let library = folder.join("libthallusweb.a");
    if !library.exists() && env::var_os("DOCS_RS").is_none() {
        println!(
            "cargo:warning=no {}: run tests/native-lib in the repository, or set THALLUSWEB_LIB_DIR to the folder that has it",
            library.display()
        );
    }
    println!("cargo:rerun-if-changed={}", library.display());
    println!("cargo:rustc-link-search=native={}", folder.display());
    println!("cargo:rustc-link-lib=static=thallusweb");
}
