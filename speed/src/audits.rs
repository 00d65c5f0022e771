//! Audits, and what they are held to besides.

use std::hint::black_box;
use std::rc::Rc;

use compare::disk::Disk;
use jufferdeeg::AuditNumbers;

use crate::cases::{on, written, Case, Side, Way, FLOPPY, LARGE};
use crate::images::{filled, one_chain, one_in_the_other, Image};
use crate::opinion;

pub type Audit = Way<Image, Vec<u8>, AuditNumbers>;

pub fn way(audit: impl Fn(u32, &[u8], &mut [u8]) -> AuditNumbers + 'static) -> Audit {
    Box::new(move |image, claim| audit(image.blocks, &image.bytes, claim))
}

/// Rattle and Rust.
fn both() -> Vec<(&'static str, Audit)> {
    vec![("Rattle", way(jufferdeeg::audit)), ("Rust", way(yardstick::audit))]
}

/// Audits of images, one after the other, in these ways.
pub fn audits_by(ways: Vec<(&'static str, Audit)>, name: &str, images: &Rc<Vec<Image>>) -> Case {
    Case::new(name, images, Image::claim, way(opinion::audit), ways)
}

/// Audits of images by Rattle and by Rust.
pub fn audits(name: &str, images: Vec<Image>) -> Case {
    audits_by(both(), name, &Rc::new(images))
}

/// Reads every byte of an image once.
fn all_bytes(image: &[u8]) -> u64 {
    image.as_chunks().0.iter().fold(0, |all, &eight| all ^ u64::from_ne_bytes(eight))
}

/// Adds up the words of every block of an image.
fn all_words(image: &[u8]) -> u32 {
    image.as_chunks().0.iter().fold(0, |all, block| all ^ yardstick::block_sum(block))
}

/// Does this with each image.
fn with_each<T>(name: &'static str, images: &Rc<Vec<Image>>, work: impl Fn(&[u8]) -> T + 'static) -> Side {
    let images = images.clone();
    Side::new(name, move || {
        for image in images.iter() {
            black_box(work(&image.bytes));
        }
    })
}

/// The rows of the table of audits, each of so many images. A row is made when it is asked for: a hundred images of
/// high-density disks are 180 MB.
pub fn rows(count: usize) -> impl Iterator<Item = Case> {
    let fills = |disk: Disk| [(disk, "full", disk.bitmap_span()), (disk, "half full", disk.blocks / 2)];
    Disk::ALL.into_iter().flat_map(fills).map(move |(disk, fill, used)| {
        let name = format!("{} blocks, kind {:02}, {fill}", written(disk.blocks as usize), disk.kind);
        let images = Rc::new(filled(&disk, used, count));
        let mut ways = both();
        ways.push(("Rust, sums first", way(yardstick::audit_sums_first)));
        let mut case = audits_by(ways, &name, &images);
        case.sides.push(with_each("all bytes read", &images, all_bytes));
        case.sides.push(with_each("words added up", &images, all_words));
        case
    })
}

/// Audits of the longest chain and of the deepest directories of each size.
pub fn extremes() -> Vec<Case> {
    let chain = |disk: Disk| {
        let entries = disk.chain_limit();
        let name = format!("audit of one chain of {} entries{}", written(entries as usize), on(&disk));
        audits(&name, one_chain(&disk, entries))
    };
    let depth = |disk: Disk| {
        let depth = disk.chain_limit();
        let name = format!("audit of {} nested directories{}", written(depth as usize), on(&disk));
        audits(&name, one_in_the_other(&disk, depth))
    };
    [FLOPPY, LARGE].map(chain).into_iter().chain([FLOPPY, LARGE].map(depth)).collect()
}
