//! Documentation and `cargo check` need no library.

use std::path::Path;
use std::process::Command;

/// Runs cargo on this package where no library is.
fn cargo(arguments: &[&str]) {
    let folder = Path::new(env!("CARGO_TARGET_TMPDIR"));
    let ran = Command::new(env!("CARGO"))
        .args(arguments)
        .args(["--offline", "--quiet"])
        .current_dir(env!("CARGO_MANIFEST_DIR"))
        .env("CARGO_TARGET_DIR", folder.join("without-library"))
        .env("THALLUSWEB_LIB_DIR", folder.join("no-library-here"))
        .env("RUSTDOCFLAGS", "-D warnings")
        .output()
        .unwrap();
    assert!(ran.status.success(), "cargo {arguments:?}: {}", String::from_utf8_lossy(&ran.stderr));
}

#[test]
fn no_library_is_needed() {
    cargo(&["doc", "--no-deps"]);
    cargo(&["check"]);
}
