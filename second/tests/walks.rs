//! The product's uncached walk beside this program's, on fresh cases.

use aalbrett_raw::aalbrett_walk;
use second::compare::walks;
use second::seed::{met, seed};

/// Answers, memory and buffers are the same byte by byte, and every rule was met.
#[test]
fn the_products_walk_agrees() {
    let count = if cfg!(debug_assertions) {
        25_000
    } else {
        250_000
    };
    met(&walks(seed(), count, aalbrett_walk));
}
