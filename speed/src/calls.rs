//! The table of the calls that are no audits of ordinary images, and cases by short names.

use compare::volumes::Order;

use crate::audits::{audits, extremes};
use crate::cases::{Case, FLOPPY, LARGE};
use crate::images::{full, one_chain};
use crate::lookups::{find_cases, read_cases, reads, whole};
use crate::programs::{self, large_program, loads, moves};

pub fn cases() -> Vec<Case> {
    [extremes(), find_cases(), read_cases(), programs::cases()].into_iter().flatten().collect()
}

/// The short names of cases for counting instructions; those of high-density disks begin with `large-`.
pub const NAMES: &str = "audit chain read large-audit large-chain large-read load move";

/// One of them.
pub fn named(name: &str) -> Option<Case> {
    let (disk, call) = name.strip_prefix("large-").map_or((FLOPPY, name), |call| (LARGE, call));
    Some(match call {
        "audit" => audits(name, full(&disk)),
        "chain" => audits(name, one_chain(&disk, disk.chain_limit())),
        "read" => reads(name, whole(&disk, Order::Shuffled)),
        "load" => loads(name, large_program()),
        "move" => moves(name, large_program()),
        _ => return None,
    })
}
