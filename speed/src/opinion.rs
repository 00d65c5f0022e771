//! The answers of the Rust of compare/, in the form in which the library gives them. Nothing is refused of what is
//! measured, but for a name that is not there.

use compare::program::Refusal;
use compare::{audit, loader, lookup, reading};
use jufferdeeg::{fault, AuditNumbers, FindNumbers, Hunk, ProgramNumbers, ReadNumbers};

pub fn audit(blocks: u32, image: &[u8], claim: &mut [u8]) -> AuditNumbers {
    let audit::Report { directories, files, list_blocks, data_blocks, used, free } =
        audit::audit(blocks, image, claim).expect("a volume");
    AuditNumbers { number: 0, place: 0, directories, files, list_blocks, data_blocks, used, free }
}

pub fn find(blocks: u32, image: &[u8], path: &[u8]) -> FindNumbers {
    match lookup::find(blocks, image, path) {
        Ok(lookup::Found { kind, key, size, compared }) => {
            FindNumbers { number: 0, place: 0, kind, key, size, compared }
        }
        Err(Refusal { number, place }) => {
            assert_eq!(number, fault::NOT_FOUND);
            FindNumbers { number, place, ..FindNumbers::default() }
        }
    }
}

pub fn read(blocks: u32, image: &[u8], path: &[u8], offset: usize, output: &mut [u8]) -> ReadNumbers {
    let count = reading::read(blocks, image, path, offset, output).expect("a file");
    ReadNumbers { number: 0, place: 0, count }
}

pub fn load(file: &[u8], bases: &[u32], memory: &mut [u8], table: &mut [Hunk], work: &mut [u8]) -> ProgramNumbers {
    with_numbers(memory, table, work, |lent| loader::load(file, bases, lent))
}

pub fn move_program(
    file: &[u8],
    old: &[u32],
    new: &[u32],
    memory: &mut [u8],
    table: &mut [Hunk],
    work: &mut [u8],
) -> ProgramNumbers {
    with_numbers(memory, table, work, |lent| loader::relocate(file, old, new, lent))
}

/// Makes a call that is lent a table of numbers in the place of records.
fn with_numbers(
    memory: &mut [u8],
    table: &mut [Hunk],
    work: &mut [u8],
    call: impl FnOnce(loader::Lent) -> Result<loader::Loaded, Refusal>,
) -> ProgramNumbers {
    let mut numbers: Vec<u32> = table.iter().flat_map(|h| [h.kind, h.place, h.size, h.base, h.memory]).collect();
    let loaded = call(loader::Lent { memory, table: &mut numbers, work }).expect("a program with room for it");
    for (record, numbers) in table.iter_mut().zip(numbers.as_chunks().0) {
        let &[kind, place, size, base, memory] = numbers;
        *record = Hunk { kind, place, size, base, memory };
    }
    ProgramNumbers { number: 0, place: 0, hunks: loaded.hunks as u32, bytes: loaded.bytes }
}
