//! Links the proved archive, libaalbrett.a.

use std::env;
use std::path::Path;

/// Names the folder of the archive: AALBRETT_LIBRARY, or where `tools/staticlib aalbrett` writes it.
fn main() {
    let package = env::var("CARGO_MANIFEST_DIR").unwrap_or_default();
    let folder = env::var("AALBRETT_LIBRARY").unwrap_or_else(|_| "../../target/staticlib".into());
    let folder = Path::new(&package).join(folder);
    println!("cargo:rerun-if-env-changed=AALBRETT_LIBRARY");
    println!(
        "cargo:rerun-if-changed={}",
        folder.join("libaalbrett.a").display()
    );
    println!("cargo:rustc-link-search=native={}", folder.display());
    println!("cargo:rustc-link-lib=static=aalbrett");
}
