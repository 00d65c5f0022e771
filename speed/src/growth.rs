//! How times grow.

use crate::audits::audits;
use crate::cases::{Case, FLOPPY, LARGE};
use crate::images::{filled, one_chain};
use crate::programs::{loads, moves, program};

/// The cases of each growing number: what grows, to how much, and the case. On high-density disks what grows is called
/// so, and goes on to twice as much.
pub fn growing() -> Vec<(&'static str, u32, Case)> {
    let mut all = Vec::new();
    for (what, disk) in [("used blocks", FLOPPY), ("used blocks, high density", LARGE)] {
        let eighths = (1..8).map(|eighths| eighths * disk.blocks / 8);
        for used in [2].into_iter().chain(eighths).chain([disk.bitmap_span()]) {
            all.push((what, used, audits("audit", filled(&disk, used, 1))));
        }
    }
    let lengths = [&[1, 4, 16, 64, 128, 256, 512, 1_024][..], &[1, 64, 512, 1_756, 2_500]];
    let whats = ["entries on one chain", "entries on one chain, high density"];
    for ((what, disk), lengths) in whats.into_iter().zip([FLOPPY, LARGE]).zip(lengths) {
        for &length in lengths.iter().chain([&disk.chain_limit()]) {
            all.push((what, length, audits("audit", one_chain(&disk, length))));
        }
    }
    let targets = [0, 512, 1_024, 2_048, 4_096, 8_192, 16_384];
    all.extend(targets.map(|each| ("targets, load", 8 * each, loads("load", program(each)))));
    all.extend(targets.map(|each| ("targets, move", 8 * each, moves("move", program(each)))));
    all
}
