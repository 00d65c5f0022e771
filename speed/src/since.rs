//! The present library against an older archive of it.

use std::rc::Rc;

use compare::disk::Disk;
use compare::volumes::Order;

use crate::audits::{audits_by, way};
use crate::cases::{on, written, Case, FAST, FLOPPY, LARGE};
use crate::images::{filled, full, one_chain, Image};
use crate::lookups::{last_byte, last_name, read, reads_by, whole, whole_name, Reading};
use crate::older::Older;
use crate::programs::{
    large_program, load, loads_by, manuals_program, moves_by, relocate, Given, LARGE_LOAD, LARGE_MOVE, SMALL_LOAD,
    SMALL_MOVE,
};

impl Older {
    /// Whether it knows disks of this size and kind.
    fn knows(self, disk: &Disk) -> bool {
        let image = &full(disk)[0];
        self.audit(image.blocks, &image.bytes, &mut image.claim(0)).number == 0
    }

    fn audits(self, name: &str, images: Vec<Image>) -> Case {
        let before = way(move |blocks, image, claim| self.audit(blocks, image, claim));
        audits_by(vec![("now", way(jufferdeeg::audit)), ("before", before)], name, &Rc::new(images))
    }

    fn reads(self, name: &str, reading: Reading) -> Case {
        let before =
            read(move |blocks, image, path, offset, output| self.read(blocks, image, path, offset, output));
        reads_by(vec![("now", read(jufferdeeg::read)), ("before", before)], name, reading)
    }

    fn loads(self, name: &str, given: Given) -> Case {
        let before = load(move |file, bases, memory, table, work| self.load(file, bases, memory, table, work));
        loads_by(vec![("now", load(jufferdeeg::load)), ("before", before)], name, given)
    }

    fn moves(self, name: &str, given: Given) -> Case {
        let before = relocate(move |file, old, new, memory, table, work| {
            self.move_program(file, old, new, memory, table, work)
        });
        moves_by(vec![("now", relocate(jufferdeeg::move_program)), ("before", before)], name, given)
    }
}

/// The cases, as far as the older archive has what they ask for.
pub fn cases(older: Older) -> Vec<Case> {
    let known = |disks: &[Disk]| disks.iter().copied().filter(|disk| older.knows(disk)).collect::<Vec<Disk>>();
    let mut all = Vec::new();
    for disk in known(&[FLOPPY, FAST]) {
        let images = filled(&disk, disk.bitmap_span(), 100);
        all.push(older.audits(&format!("audit of a hundred full images{}", on(&disk)), images));
    }
    for disk in known(&[FLOPPY, LARGE]) {
        for one in known(&[disk, Disk { kind: Disk::OLD_INTERNATIONAL.kind, ..disk }]) {
            all.push(older.audits(&format!("audit of one full image{}", on(&one)), full(&one)));
        }
        let entries = disk.chain_limit();
        let name = format!("audit of one chain of {} entries{}", written(entries as usize), on(&disk));
        all.push(older.audits(&name, one_chain(&disk, entries)));
        for order in [Order::Shuffled, Order::Rising] {
            all.push(older.reads(&whole_name(&disk, order), whole(&disk, order)));
        }
        all.push(older.reads(&last_name(&disk), last_byte(&disk)));
    }
    if older.has_programs() {
        all.extend([
            older.loads(LARGE_LOAD, large_program()),
            older.moves(LARGE_MOVE, large_program()),
            older.loads(SMALL_LOAD, manuals_program()),
            older.moves(SMALL_MOVE, manuals_program()),
        ]);
    }
    all
}

/// The short names of cases for counting instructions.
pub fn names(older: Older) -> &'static str {
    if older.has_programs() {
        "audit chain read load move"
    } else {
        "audit chain read"
    }
}

/// One of them.
pub fn named(older: Older, name: &str) -> Option<Case> {
    Some(match name {
        "audit" => older.audits(name, full(&FLOPPY)),
        "chain" => older.audits(name, one_chain(&FLOPPY, FLOPPY.chain_limit())),
        "read" => older.reads(name, whole(&FLOPPY, Order::Shuffled)),
        "load" => older.loads(name, large_program()),
        "move" => older.moves(name, large_program()),
        _ => return None,
    })
}
