//! The product's starts, steps and INVPCID beside this program's on handmade machines: any places, any settings, any memory.

use aalbrett_raw::{invpcid, start, step};
use second::compare_invpcid::invpcids;
use second::compare_machines::machines;
use second::compare_starts::starts;
use second::seed::{met, seed};

/// The machines started.
const STARTS: u64 = 25_000;
/// The machines of which INVPCID is called, six times each.
const INVPCIDS: u64 = 25_000;
/// The machines drawn; each is stepped by eight cards.
const MACHINES: u64 = 25_000;

/// Numbers and whole records are the same after every start, and every rule was met.
#[test]
fn the_products_starts_agree() {
    met(&starts(seed(), STARTS, start));
}

/// Numbers, whole records and buffers are the same after every INVPCID, and every rule was met.
#[test]
fn the_products_invpcid_agrees() {
    met(&invpcids(seed(), INVPCIDS, invpcid));
}

/// Numbers, whole records, buffers and memory are the same after every card, and every rule was met.
#[test]
fn the_products_machine_agrees() {
    met(&machines(seed(), MACHINES, step));
}
