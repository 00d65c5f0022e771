//! Loads and moves.

use std::rc::Rc;

use compare::program::Memory;
use compare::programs::{bytes, file, worked_file, Block, Body, Hunk, Program, Room};
use compare::rng::Rng;
use jufferdeeg::{Hunk as Record, ProgramNumbers};

use crate::cases::{Case, Way};
use crate::opinion;

/// A program file, bases to load it for, others to move it to, and the room that is lent.
#[derive(Clone)]
pub struct Given {
    file: Vec<u8>,
    old: Vec<u32>,
    new: Vec<u32>,
    room: Room,
}

/// Room of 1 MiB, with a table that is never short.
const LARGE_ROOM: Room = Room { memory: 1 << 20, records: 64, work: 1 << 20 };

/// A program of 8 hunks with 32,768 stored words and so many targets each.
pub fn program(targets: u32) -> Given {
    const HUNKS: u32 = 8;
    const WORDS: u32 = 32_768;
    let mut rng = Rng::new(5);
    let hunk = |rng: &mut Rng| {
        let stored = (0..WORDS).map(|_| rng.draw() as u32).collect();
        // evenly spread, at multiples of 4
        let offsets: Vec<u32> =
            (0..targets).map(|i| (u64::from(i) * u64::from(WORDS - 1) / u64::from(targets)) as u32 * 4).collect();
        let group = |k: u32| {
            let part = offsets.iter().enumerate().filter(|(i, _)| *i as u32 % HUNKS == k);
            (k, part.map(|(_, &offset)| offset).collect::<Vec<u32>>())
        };
        let groups = (0..HUNKS).map(group).filter(|(_, offsets)| !offsets.is_empty()).collect();
        let blocks = vec![Block::Relocations(groups)];
        Hunk { size: WORDS, memory: Memory::Any, name: None, body: Body::Code(stored), blocks }
    };
    let hunks = (0..HUNKS).map(|_| hunk(&mut rng)).collect();
    let bases = |first: u32| (0..HUNKS).map(|k| first + k * 4 * WORDS).collect();
    let file = file(&Program { hunks }.written());
    Given { file, old: bases(0x10_0000), new: bases(0x84_0000), room: LARGE_ROOM }
}

/// The program of the tables: 1 MiB with 32,768 targets.
pub fn large_program() -> Given {
    program(4_096)
}

/// A program of one hunk of 65,536 words, nothing stored and no targets: what is left is clearing.
fn bss_program() -> Given {
    let file = bytes(&[0x3F3, 0, 1, 0, 0, 65_536, 0x3EB, 65_536, 0x3F2]);
    Given { file, old: vec![0], new: vec![4], room: LARGE_ROOM }
}

/// The manual's program in a large room.
pub fn manuals_program() -> Given {
    Given { file: worked_file(), old: vec![0x3000, 0x7000], new: vec![0x4000, 0x9000], room: LARGE_ROOM }
}

/// What is lent.
#[derive(PartialEq)]
pub struct Areas {
    memory: Vec<u8>,
    table: Vec<Record>,
    work: Vec<u8>,
}

impl Areas {
    /// A call leaves part of memory and table, and clears the work area.
    fn new(given: &Given, byte: u8) -> Areas {
        let Room { memory, records, work } = given.room;
        Areas { memory: vec![0x33; memory], table: vec![Record::default(); records], work: vec![byte; work] }
    }
}

pub type Call = Way<Given, Areas, ProgramNumbers>;

pub fn load(
    load: impl Fn(&[u8], &[u32], &mut [u8], &mut [Record], &mut [u8]) -> ProgramNumbers + 'static,
) -> Call {
    Box::new(move |Given { file, old, .. }, Areas { memory, table, work }| load(file, old, memory, table, work))
}

/// Any memory will do to move a program, also that of a program which was moved.
pub fn relocate(
    relocate: impl Fn(&[u8], &[u32], &[u32], &mut [u8], &mut [Record], &mut [u8]) -> ProgramNumbers + 'static,
) -> Call {
    Box::new(move |Given { file, old, new, .. }, Areas { memory, table, work }| {
        relocate(file, old, new, memory, table, work)
    })
}

pub fn loads_by(ways: Vec<(&'static str, Call)>, name: &str, given: Given) -> Case {
    Case::new(name, &Rc::new(vec![given]), Areas::new, load(opinion::load), ways)
}

pub fn moves_by(ways: Vec<(&'static str, Call)>, name: &str, given: Given) -> Case {
    Case::new(name, &Rc::new(vec![given]), Areas::new, relocate(opinion::move_program), ways)
}

/// Loads by Rattle and by Rust.
pub fn loads(name: &str, given: Given) -> Case {
    loads_by(vec![("Rattle", load(jufferdeeg::load)), ("Rust", load(yardstick::load))], name, given)
}

/// Moves by Rattle and by Rust.
pub fn moves(name: &str, given: Given) -> Case {
    let ways = vec![("Rattle", relocate(jufferdeeg::move_program)), ("Rust", relocate(yardstick::move_program))];
    moves_by(ways, name, given)
}

pub const LARGE_LOAD: &str = "load of 1 MiB with 32,768 targets";
pub const LARGE_MOVE: &str = "move of 1 MiB with 32,768 targets";
pub const SMALL_LOAD: &str = "load of the manual's program, 148 bytes, in a room of 1 MiB";
pub const SMALL_MOVE: &str = "move of the manual's program in a room of 1 MiB";

/// The cases of the table.
pub fn cases() -> Vec<Case> {
    let large = large_program();
    let manuals = manuals_program();
    let close = Given { room: Room { memory: 40, records: 2, work: 40 }, ..manuals_program() };
    vec![
        loads(LARGE_LOAD, large.clone()),
        moves(LARGE_MOVE, large),
        loads("load of 256 KiB with nothing stored", bss_program()),
        loads(SMALL_LOAD, manuals.clone()),
        loads("load of the manual's program in a room of just its bytes", close.clone()),
        moves(SMALL_MOVE, manuals),
        moves("move of the manual's program in a room of just its bytes", close),
    ]
}
