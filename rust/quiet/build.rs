//! Links the static library that `rt lib` writes in crates/quiet_c. `QUIET_C_DIR` names another folder for it.

use std::env;
use std::path::PathBuf;

fn main() {
    let dir = env::var_os("QUIET_C_DIR").map_or_else(
        || PathBuf::from(env!("CARGO_MANIFEST_DIR")).join("../../crates/quiet_c/out"),
        PathBuf::from,
    );
    println!("cargo:rerun-if-env-changed=QUIET_C_DIR");
    println!(
        "cargo:rerun-if-changed={}",
        dir.join("libquiet_c.a").display()
    );
    println!("cargo:rustc-link-search=native={}", dir.display());
    println!("cargo:rustc-link-lib=static=quiet_c");
}
