//! Finds and reads.

use std::rc::Rc;

use compare::disk::Disk;
use compare::lookup::LONGEST_PATH;
use compare::names::slot;
use compare::rng::Rng;
use compare::sizes::largest_file;
use compare::volumes::{mixed, Kind, Order, Plan, Volume};
use jufferdeeg::{FindNumbers, ReadNumbers};

use crate::cases::{on, written, Case, Way, FAST, FLOPPY, LARGE, LARGE_FAST};
use crate::images::{chain_volume, image_of, laid_out, Image};
use crate::opinion;

/// An image and a path to look for.
pub struct Sought {
    image: Image,
    path: Vec<u8>,
}

fn find(find: impl Fn(u32, &[u8], &[u8]) -> FindNumbers + 'static) -> Way<Sought, (), FindNumbers> {
    Box::new(move |Sought { image, path }, ()| find(image.blocks, &image.bytes, path))
}

fn finds(name: &str, volume: Volume, path: &[u8]) -> Case {
    let inputs = Rc::new(vec![Sought { image: image_of(volume), path: path.to_vec() }]);
    let ways = vec![("Rattle", find(jufferdeeg::find)), ("Rust", find(yardstick::find))];
    Case::new(name, &inputs, |_, _| (), find(opinion::find), ways)
}

/// A full floppy with a file `shallow` in its root.
fn busy() -> Volume {
    let mut rng = Rng::new(7);
    let mut plan = mixed(&mut rng, &FLOPPY, FLOPPY.chain_limit() - 1);
    plan.add_named(None, b"shallow", Kind::File(0));
    laid_out(&mut rng, &plan, Order::Shuffled)
}

/// A name that the root does not have, in one of its slots with the most entries; and how many these are.
fn missing(volume: &Volume) -> (String, usize) {
    let (disk, root) = (&volume.disk, volume.disk.root());
    let beside = |name: &String| {
        let slot = slot(disk, name.as_bytes());
        volume.entries.iter().filter(|entry| entry.directory == root && entry.slot == slot).count()
    };
    let name = (0..1_000).map(|number| format!("missing{number}")).max_by_key(beside).expect("a name");
    let entries = beside(&name);
    (name, entries)
}

/// Finds of a name at hand, of the path with the most components, at the end of the longest chains, and of nothing.
pub fn find_cases() -> Vec<Case> {
    const DEPTH: usize = LONGEST_PATH.div_ceil(2); // with a byte each
    let deep = {
        let mut plan = Plan::new(&FLOPPY);
        (0..DEPTH).fold(None, |within, _| Some(plan.add_named(within, b"d", Kind::Directory)));
        laid_out(&mut Rng::new(8), &plan, Order::Shuffled)
    };
    let at_the_end = |disk: Disk| {
        let volume = chain_volume(&disk, disk.chain_limit());
        let last = volume.entries.iter().max_by_key(|entry| entry.place()).expect("an entry");
        let name = format!("find of the last entry of a chain of {}{}", written(volume.entries.len()), on(&disk));
        let path = last.name.clone();
        finds(&name, volume, &path)
    };
    let absent = {
        let volume = busy();
        let (path, entries) = missing(&volume);
        finds(&format!("find of a name that is not there, among {entries} entries"), volume, path.as_bytes())
    };
    let mut all = vec![
        finds("find of a file in the root of a full disk", busy(), b"shallow"),
        finds(&format!("find of a path of {DEPTH} components"), deep, &["d"; DEPTH].join("/").into_bytes()),
    ];
    all.extend([FLOPPY, LARGE].map(at_the_end));
    all.push(absent);
    all
}

/// An image with one file, `big`, and from where to read so many of its bytes.
pub struct Reading {
    image: Image,
    offset: usize,
    count: usize,
}

pub type Read = Way<Reading, Vec<u8>, ReadNumbers>;

pub fn read(read: impl Fn(u32, &[u8], &[u8], usize, &mut [u8]) -> ReadNumbers + 'static) -> Read {
    Box::new(move |reading, output| {
        read(reading.image.blocks, &reading.image.bytes, b"big", reading.offset, output)
    })
}

/// Rattle and Rust.
fn both() -> Vec<(&'static str, Read)> {
    vec![("Rattle", read(jufferdeeg::read)), ("Rust", read(yardstick::read))]
}

/// What is read of a file of this size: its last bytes, so many.
pub fn last_bytes(disk: &Disk, order: Order, size: u32, count: u32) -> Reading {
    let mut plan = Plan::new(disk);
    plan.add_named(None, b"big", Kind::File(size));
    let image = image_of(laid_out(&mut Rng::new(4), &plan, order));
    Reading { image, offset: (size - count) as usize, count: count as usize }
}

/// The whole largest file of a disk.
pub fn whole(disk: &Disk, order: Order) -> Reading {
    let size = largest_file(disk);
    last_bytes(disk, order, size, size)
}

pub fn reads_by(ways: Vec<(&'static str, Read)>, name: &str, reading: Reading) -> Case {
    let output = |reading: &Reading, byte: u8| vec![byte; reading.count];
    Case::new(name, &Rc::new(vec![reading]), output, read(opinion::read), ways)
}

/// Reads by Rattle and by Rust.
pub fn reads(name: &str, reading: Reading) -> Case {
    reads_by(both(), name, reading)
}

fn ordered(order: Order) -> &'static str {
    if order == Order::Rising {
        "blocks in order"
    } else {
        "blocks in any order"
    }
}

/// What a read of the whole largest file is called.
pub fn whole_name(disk: &Disk, order: Order) -> String {
    format!("read of a file of {} bytes{}, {}", written(largest_file(disk) as usize), on(disk), ordered(order))
}

/// What a read of its last byte is called.
pub fn last_name(disk: &Disk) -> String {
    format!("read of its last byte{}, {}", on(disk), ordered(Order::Shuffled))
}

/// The last byte of the largest file of a disk.
pub fn last_byte(disk: &Disk) -> Reading {
    last_bytes(disk, Order::Shuffled, largest_file(disk), 1)
}

/// Reads of the largest file of each size in both file systems, whole and the last byte alone, and of a small file.
pub fn read_cases() -> Vec<Case> {
    let mut all = Vec::new();
    for disk in [FLOPPY, FAST, LARGE, LARGE_FAST] {
        for order in [Order::Rising, Order::Shuffled] {
            all.push(reads(&whole_name(&disk, order), whole(&disk, order)));
        }
        all.push(reads(&last_name(&disk), last_byte(&disk)));
    }
    for disk in [FLOPPY, FAST] {
        let name = format!("read of a file of 1,000 bytes{}", on(&disk));
        all.push(reads(&name, last_bytes(&disk, Order::Shuffled, 1_000, 1_000)));
    }
    all
}
