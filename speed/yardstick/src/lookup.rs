//! Paths, and the bytes of files.

use jufferdeeg::{FindNumbers, ReadNumbers};

use crate::block::{
    entry, raw, raw_key, refused, root_fault, stored, sum, word, Block, Hangs, Refusal, LIST, NEXT, SIZE, TABLE,
    TABLE_START,
};
use crate::disk::{blocks_of, Kind};
use crate::file::{data_bytes, data_start, test_file, Met, Note, Source};
use crate::name::{Name, LONGEST};

/// The longest path.
const LONGEST_PATH: usize = 255;

/// Finds what a path leads to, as `jufferdeeg::find` does.
pub fn find(disk_blocks: u32, image: &[u8], path: &[u8]) -> FindNumbers {
    match Found::new(disk_blocks, image, path) {
        Ok(Found { key, compared, file: None, .. }) => {
            FindNumbers { kind: jufferdeeg::DIRECTORY, key, compared, ..FindNumbers::default() }
        }
        Ok(Found { key, compared, file: Some(block), .. }) => {
            let size = word(block, SIZE);
            FindNumbers { kind: jufferdeeg::FILE, key, size, compared, ..FindNumbers::default() }
        }
        Err(Refusal { number, place }) => FindNumbers { number, place: place as usize, ..FindNumbers::default() },
    }
}

/// Reads a file from an offset on, as `jufferdeeg::read` does.
pub fn read(disk_blocks: u32, image: &[u8], path: &[u8], offset: usize, output: &mut [u8]) -> ReadNumbers {
    match copied(disk_blocks, image, path, offset, output) {
        Ok(count) => ReadNumbers { count, ..ReadNumbers::default() },
        Err(Refusal { number, place }) => ReadNumbers { number, place: place as usize, ..ReadNumbers::default() },
    }
}

/// What a path leads to.
struct Found<'a> {
    blocks: &'a [Block],
    kind: Kind,
    key: u32,
    compared: u32,
    /// The header of a file.
    file: Option<&'a Block>,
}

impl<'a> Found<'a> {
    fn new(named: u32, image: &'a [u8], path: &[u8]) -> Result<Found<'a>, Refusal> {
        let Some(blocks) = blocks_of(named, image) else { return refused(1, 0) };
        test_form(path)?;
        let Some(kind) = Kind::of(&blocks[0]) else { return refused(3, 0) };
        let root = blocks.len() as u32 / 2;
        let mut table = &blocks[root as usize];
        let number = root_fault(table);
        if number != 0 {
            return refused(number, root);
        }
        let mut found = Found { blocks, kind, key: root, compared: 0, file: None };
        if path.is_empty() {
            return Ok(found);
        }
        for (place, component) in path.split(|&byte| byte == b'/').enumerate() {
            if found.file.is_some() {
                return refused(20, place as u32 - 1);
            }
            let Some(name) = Name::new(component, kind.accents) else { return refused(18, place as u32) };
            if !found.search(&mut table, &name)? {
                return refused(19, place as u32);
            }
        }
        Ok(found)
    }

    /// Goes on to the entry of this name in the directory that was found; whether there is one.
    fn search(&mut self, table: &mut &'a Block, name: &Name) -> Result<bool, Refusal> {
        let (slot, directory) = (name.slot(), stored(self.key));
        let mut next = raw(table, TABLE_START + slot as usize);
        let mut left = self.blocks.len() - 4;
        while next != 0 {
            let key = u32::from_be(next);
            let block = block_of(self.blocks, key)?;
            if left == 0 {
                return refused(6, key);
            }
            left -= 1;
            let at = Hangs { key: next, directory, slot };
            let entry = match entry(block, sum(block), at, self.kind.accents) {
                Ok(entry) => entry,
                Err(number) => return refused(number, key),
            };
            self.compared += 1;
            if entry.name == *name {
                (self.key, *table) = (key, block);
                self.file = (!entry.is_directory).then_some(block);
                return Ok(true);
            }
            next = raw(block, NEXT);
        }
        Ok(false)
    }
}

/// The block of a key.
#[inline(always)]
fn block_of(blocks: &[Block], key: u32) -> Result<&Block, Refusal> {
    match blocks.get(key as usize) {
        Some(block) if key >= 2 => Ok(block),
        _ => refused(5, key),
    }
}

/// Refuses a path that is not of good form.
fn test_form(path: &[u8]) -> Result<(), Refusal> {
    if path.len() > LONGEST_PATH {
        return refused(18, 0);
    }
    if path.is_empty() {
        return Ok(());
    }
    let (mut place, mut length, mut has_colon) = (0, 0, false);
    for &byte in path {
        if byte == b'/' {
            if has_colon || length == 0 || length > LONGEST {
                break;
            }
            (place, length) = (place + 1, 0);
        } else {
            length += 1;
            has_colon |= byte == b':';
        }
    }
    if has_colon || length == 0 || length > LONGEST {
        return refused(18, place);
    }
    Ok(())
}

/// The blocks of an image, of which nothing is known.
struct Plain<'a>(&'a [Block]);

impl<'a> Source<'a> for Plain<'a> {
    #[inline(always)]
    fn meet(&mut self, key: u32) -> Result<Met<'a>, Refusal> {
        block_of(self.0, key).map(|block| Met { block, has_sum: false })
    }

    #[inline(always)]
    fn note(&self, _: u32) -> Note {
        Note::NONE
    }
}

fn copied(named: u32, image: &[u8], path: &[u8], offset: usize, output: &mut [u8]) -> Result<usize, Refusal> {
    let found = Found::new(named, image, path)?;
    let Found { blocks, key, file: Some(header), .. } = found else {
        return refused(20, path.iter().filter(|&&byte| byte == b'/').count() as u32);
    };
    let disk_blocks = blocks.len() as u32;
    if found.kind.is_old {
        test_file::<true>(disk_blocks, key, header, &mut Plain(blocks))?;
    } else {
        test_file::<false>(disk_blocks, key, header, &mut Plain(blocks))?;
    }
    let size = word(header, SIZE) as usize;
    let count = size.saturating_sub(offset).min(output.len());
    copy(blocks, found.kind.is_old, header, offset, &mut output[..count]);
    Ok(count)
}

/// Fills the output with a file's bytes from an offset on; the file has so many, and has passed.
fn copy(blocks: &[Block], is_old: bool, header: &Block, offset: usize, output: &mut [u8]) {
    if output.is_empty() {
        return;
    }
    let (start, bytes) = (data_start(is_old), data_bytes(is_old) as usize);
    let (mut index, mut within) = (offset / bytes, offset % bytes);
    let mut table = header;
    while index >= TABLE as usize {
        table = &blocks[word(table, LIST) as usize];
        index -= TABLE as usize;
    }
    let mut rest = output;
    loop {
        let block = &blocks[u32::from_be(raw_key(table, index as u32)) as usize];
        let held = &block[start + within..];
        let count = held.len().min(rest.len());
        let (now, later) = rest.split_at_mut(count);
        now.copy_from_slice(&held[..count]);
        if later.is_empty() {
            return;
        }
        (rest, within, index) = (later, 0, index + 1);
        if index == TABLE as usize {
            table = &blocks[word(table, LIST) as usize];
            index = 0;
        }
    }
}
