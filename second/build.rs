//! Hands the product's archives to the linker of the targets that call them.

use std::env;
use std::path::Path;

/// Names the product's archive for the tests and the speed program, the timed loop's for the latter alone.
fn main() {
    let package = env::var("CARGO_MANIFEST_DIR").unwrap_or_default();
    let folder = env::var("AALBRETT_LIBRARY").unwrap_or_else(|_| "../target/staticlib".into());
    let folder = Path::new(&package).join(folder);
    let product = folder.join("libaalbrett.a");
    let timed = folder.join("libtiming.a");
    let (product, timed) = (product.display(), timed.display());
    println!("cargo:rerun-if-env-changed=AALBRETT_LIBRARY");
    println!("cargo:rerun-if-changed={product}");
    println!("cargo:rerun-if-changed={timed}");
    println!("cargo:rustc-link-arg-tests={product}");
    println!("cargo:rustc-link-arg-bin=speed={product}");
    println!("cargo:rustc-link-arg-bin=speed={timed}");
}
