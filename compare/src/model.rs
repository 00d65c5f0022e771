//! What the instrument `probe` is to answer, request by request.
//!
//! The calls may be made by this package or by others, as the exported functions: then what each call did to the areas
//! that it was lent is told too, where it did what it may not.
//!
//! Where the instrument's description leaves room, the model takes it like this:
//!
//! - What answers `bad request` changes nothing: the held image and file, memory, table and their lengths stay.
//! - A load or move that is refused has been made all the same. Such a load fills the areas and sets their lengths.
//! - A move may lend at most the memory and the records that the last load was lent, even after moves that were lent
//!   less; what such a move was not lent keeps its bytes. Before any load both lengths are 0.
//! - The work area of a move is lent anew and bound by its room alone, not by the last load.
//! - Each list of bases may have 256 entries, so a move's two lists together 512.
//! - A new file leaves memory and table alone.
//! - A body that is not whole numbers is a bad request with 7 and 8; that of 9 is one number and nothing else.
//! - Any number may be named with 9. It is for the calls after it to refuse an image by it.

use std::hint::black_box;

use crate::areas::{Area, Shown, Watched};
use crate::audit::Report;
use crate::blocks::{DIRECTORY, FILE as FILE_KIND};
use crate::calls::{Calls, Opinion};
use crate::disk::FLOPPY;
use crate::driver::{checksum, Request};
use crate::loader::{Lent, Loaded, RECORD};
use crate::lookup::Found;
use crate::program::Refusal;
use crate::programs::{bytes, Room};

/// The numbers of the requests.
pub const IMAGE: u32 = 1;
pub const PATCH: u32 = 2;
pub const AUDIT: u32 = 3;
pub const FIND: u32 = 4;
pub const READ: u32 = 5;
pub const FILE: u32 = 6;
pub const LOAD: u32 = 7;
pub const MOVE: u32 = 8;
pub const DISK: u32 = 9;

/// Requests that `probe` does not have: a read with an offset of eight bytes, and a check of the held file.
pub const FAR_READ: u32 = 101;
pub const CHECK: u32 = 102;

/// The answer to what is no request.
pub const BAD: &str = "bad request";

/// The longest image that `probe` takes, the longest file, claim area, path and output.
pub const IMAGE_ROOM: usize = 1_802_240;
pub const FILE_ROOM: usize = 1_048_576;
pub const CLAIM_ROOM: usize = 4_096;
pub const PATH_ROOM: usize = 4_096;
pub const OUTPUT_ROOM: usize = 1_048_576;
/// The most memory that it lends, and the largest work area.
pub const AREA_ROOM: usize = 524_288;
/// The most records that it lends, and the most entries of a list of bases.
pub const RECORDS: usize = 80;
pub const BASES: usize = 256;

/// What is in the memory and in the table before a load.
pub const MEMORY_BEFORE: u8 = 0x55;
pub const TABLE_BEFORE: u32 = 0x5555_5555;
/// What is in claim areas, outputs and work areas before a call.
const BEFORE: u8 = 0xAA;

/// The largest room that `probe` lends a load.
pub const MOST: Room = Room { memory: AREA_ROOM, records: RECORDS, work: AREA_ROOM };

/// What `probe` remembers between requests, and who makes the calls that are asked for.
pub struct Model<C = Opinion> {
    calls: C,
    /// The number of blocks that calls name.
    named: u32,
    /// The held image.
    image: Shown<u8>,
    /// The held program file.
    file: Shown<u8>,
    /// The memory as the last load or move left it.
    pub memory: Area<u8>,
    /// The table as the last load or move left it.
    pub table: Area<u32>,
    /// How many areas were made: each lies a little further than the one before.
    areas: usize,
}

/// The numbers of a body, if it is made of whole ones.
fn numbers(body: &[u8]) -> Option<Vec<u32>> {
    let whole = body.len().is_multiple_of(4);
    let number = |four: &[u8]| four.iter().fold(0, |high, &low| high << 8 | u32::from(low));
    whole.then(|| body.chunks(4).map(number).collect())
}

/// The first number of a body, and the bytes after it.
fn number_first(body: &[u8]) -> Option<(usize, &[u8])> {
    let (&four, rest) = body.split_first_chunk()?;
    Some((u32::from_be_bytes(four) as usize, rest))
}

/// The room that the first three numbers ask for, if `most` has as much, and the other numbers.
fn room(numbers: &[u32], most: Room) -> Option<(Room, &[u32])> {
    let (&[memory, records, work], rest) = numbers.split_first_chunk()?;
    let room = Room { memory: memory as usize, records: records as usize, work: work as usize };
    let fits = room.memory <= most.memory && room.records <= most.records && room.work <= most.work;
    fits.then_some((room, rest))
}

fn refused(Refusal { number, place }: Refusal) -> String {
    format!("refused {number} {place}")
}

/// The line for a load or move that was made with these areas.
fn line(verb: &str, result: Result<Loaded, Refusal>, memory: &[u8], table: &[u32], work: &[u8]) -> String {
    let answer = result.map_or_else(refused, |Loaded { hunks, bytes }| format!("{verb} {hunks} {bytes}"));
    let [memory, table, work] = [checksum(memory), checksum(&bytes(table)), checksum(work)];
    format!("{answer} memory {memory} table {table} work {work}")
}

impl<C: Calls + Default> Default for Model<C> {
    fn default() -> Model<C> {
        Model::new(C::default())
    }
}

impl<C: Calls> Model<C> {
    /// Nothing is held yet, and the floppy's number of blocks is named.
    pub fn new(calls: C) -> Model<C> {
        let (image, file) = (Shown::new(&[], 0), Shown::new(&[], 0));
        let (memory, table) = (Area::new(&[], 0), Area::new(&[], 0));
        Model { calls, named: FLOPPY, image, file, memory, table, areas: 0 }
    }

    /// The line for a request.
    pub fn answer(&mut self, number: u32, body: &[u8]) -> String {
        self.answered(number, body).unwrap_or(BAD.to_string())
    }

    fn answered(&mut self, number: u32, body: &[u8]) -> Option<String> {
        match number {
            IMAGE if body.len() <= IMAGE_ROOM => Some(self.take_image(body)),
            PATCH => self.patch(body),
            AUDIT => {
                let (length, _) = number_first(body).filter(|&(length, _)| length <= CLAIM_ROOM)?;
                Some(self.audit(length))
            }
            FIND if body.len() <= PATH_ROOM => Some(self.find(body)),
            READ => {
                let (offset, rest) = number_first(body)?;
                self.read_into(offset, rest)
            }
            FAR_READ => {
                let (&offset, rest) = body.split_first_chunk()?;
                self.read_into(u64::from_be_bytes(offset) as usize, rest)
            }
            FILE if body.len() <= FILE_ROOM => Some(self.take_file(body)),
            CHECK => Some(self.check()),
            LOAD => {
                let numbers = numbers(body)?;
                let (room, bases) = room(&numbers, MOST)?;
                (bases.len() <= BASES).then(|| self.load(room, bases))
            }
            MOVE => {
                let numbers = numbers(body)?;
                let held = Room { memory: self.memory.len(), records: self.table.len() / RECORD, ..MOST };
                let (room, lists) = room(&numbers, held)?;
                let (&count, lists) = lists.split_first()?;
                let (old, new) = lists.split_at_checked(count as usize)?;
                (old.len() <= BASES && new.len() <= BASES).then(|| self.relocate(room, old, new))
            }
            DISK => {
                let (named, rest) = number_first(body)?;
                rest.is_empty().then(|| self.name(named as u32))
            }
            _ => None,
        }
    }

    /// How far the next area is shifted.
    fn shift(&mut self) -> usize {
        self.areas += 1;
        self.areas
    }

    /// The line of a call that was lent these areas, and what it did that it may not.
    fn told(&self, line: String, lent: &[(&str, &dyn Watched)]) -> String {
        if !C::WATCHED {
            return line;
        }
        let changed = lent.iter().filter(|(_, area)| !area.is_intact());
        let faults = changed.map(|(name, _)| format!("{name} overwritten")).chain(self.calls.fault());
        line + &faults.map(|fault| format!(", {fault}")).collect::<String>()
    }

    /// Lets the calls after this one name a number of blocks.
    pub fn name(&mut self, named: u32) -> String {
        self.named = named;
        format!("disk {named}")
    }

    /// Holds an image of any length.
    pub fn take_image(&mut self, image: &[u8]) -> String {
        self.image = Shown::new(image, self.shift());
        format!("image {}", image.len())
    }

    fn patch(&mut self, body: &[u8]) -> Option<String> {
        let (place, new) = number_first(body)?;
        self.image.put(place, new)?;
        Some("patched".to_string())
    }

    /// An audit with a claim area of any length.
    pub fn audit(&mut self, length: usize) -> String {
        let mut claim = Area::filled(BEFORE, length, self.shift());
        let answer = match self.calls.audit(self.named, &self.image, &mut claim) {
            Ok(Report { directories, files, list_blocks, data_blocks, used, free }) => {
                format!("accepted {directories} {files} {list_blocks} {data_blocks} {used} {free}")
            }
            Err(refusal) => refused(refusal),
        };
        let line = format!("{answer} claim {}", checksum(&claim));
        self.told(line, &[("image", &self.image), ("claim area", &claim)])
    }

    /// A lookup of a path of any length.
    pub fn find(&mut self, path: &[u8]) -> String {
        let path = Shown::new(path, self.shift());
        let line = match self.calls.find(self.named, &self.image, &path) {
            Ok(Found { kind: DIRECTORY, key, size, compared }) => format!("directory {key} {size} {compared}"),
            Ok(Found { kind: FILE_KIND, key, size, compared }) => format!("file {key} {size} {compared}"),
            Ok(other) => format!("{other:?}"),
            Err(refusal) => refused(refusal),
        };
        self.told(line, &[("image", &self.image), ("path", &path)])
    }

    /// A read, if the room and the path after it are not too long.
    fn read_into(&mut self, offset: usize, rest: &[u8]) -> Option<String> {
        let (room, path) = number_first(rest)?;
        (room <= OUTPUT_ROOM && path.len() <= PATH_ROOM).then(|| self.read(path, offset, room))
    }

    /// A read of any path, from any offset on, into an output of any length.
    pub fn read(&mut self, path: &[u8], offset: usize, room: usize) -> String {
        let path = Shown::new(path, self.shift());
        let mut output = Area::filled(BEFORE, room, self.shift());
        let answer = self.calls.read(self.named, &self.image, &path, offset, &mut output);
        let answer = answer.map_or_else(refused, |count| format!("bytes {count}"));
        let line = format!("{answer} out {}", checksum(&output));
        self.told(line, &[("image", &self.image), ("path", &path), ("output", &output)])
    }

    /// Holds a program file of any length.
    pub fn take_file(&mut self, file: &[u8]) -> String {
        self.file = Shown::new(file, self.shift());
        format!("file {}", file.len())
    }

    /// A check of the held file.
    pub fn check(&mut self) -> String {
        let answer = self.calls.check(&self.file);
        let line = answer.map_or_else(refused, |Loaded { hunks, bytes }| format!("checked {hunks} {bytes}"));
        self.told(line, &[("file", &self.file)])
    }

    /// A load into new memory and a new table, of any lengths.
    pub fn load(&mut self, room: Room, bases: &[u32]) -> String {
        self.memory = Area::filled(MEMORY_BEFORE, room.memory, self.shift());
        self.table = Area::filled(TABLE_BEFORE, RECORD * room.records, self.shift());
        let bases = Shown::new(bases, self.shift());
        let mut work = Area::filled(BEFORE, room.work, self.shift());
        let lent = Lent { memory: &mut self.memory, table: &mut self.table, work: &mut work };
        let result = self.calls.load(&self.file, &bases, lent);
        let line = line("loaded", result, &self.memory, &self.table, &work);
        let (file, memory, table) = (&self.file, &self.memory, &self.table);
        let lent: [(_, &dyn Watched); 5] =
            [("file", file), ("bases", &bases), ("memory", memory), ("table", table), ("work area", &work)];
        self.told(line, &lent)
    }

    /// A move in the memory and the table that are held, or in the beginning of each.
    pub fn relocate(&mut self, room: Room, old: &[u32], new: &[u32]) -> String {
        let [old, new] = [old, new].map(|bases| Shown::new(bases, self.shift()));
        let mut work = Area::filled(BEFORE, room.work, self.shift());
        let (bytes, numbers) = (room.memory, RECORD * room.records);
        let others = (self.memory[bytes..].to_vec(), self.table[numbers..].to_vec());
        let lent = Lent { memory: &mut self.memory[..bytes], table: &mut self.table[..numbers], work: &mut work };
        let result = self.calls.relocate(&self.file, &old, &new, lent);
        let (file, memory, table) = (&self.file, black_box(&self.memory), black_box(&self.table));
        let mut line = line("moved", result, &memory[..bytes], &table[..numbers], &work);
        if (&memory[bytes..], &table[numbers..]) != (&others.0[..], &others.1[..]) {
            line += ", memory or table overwritten after what was lent";
        }
        let lent: [(_, &dyn Watched); 6] = [
            ("file", file),
            ("old bases", &old),
            ("new bases", &new),
            ("memory", memory),
            ("table", table),
            ("work area", &work),
        ];
        self.told(line, &lent)
    }

    /// The sentence for a refusal's number, in an output of any length.
    pub fn reason(&mut self, number: u32, room: usize) -> String {
        let mut output = Area::filled(BEFORE, room, self.shift());
        let length = self.calls.reason(number, &mut output);
        let line = format!("reason {length} out {}", checksum(&output));
        self.told(line, &[("output", &output)])
    }
}

/// The body of a load.
pub fn load_body(room: Room, bases: &[u32]) -> Vec<u8> {
    bytes(&[&[room.memory as u32, room.records as u32, room.work as u32], bases].concat())
}

/// The body of a move.
pub fn move_body(room: Room, old: &[u32], new: &[u32]) -> Vec<u8> {
    let numbers = [room.memory as u32, room.records as u32, room.work as u32, old.len() as u32];
    bytes(&[&numbers, old, new].concat())
}

/// The request for a read.
pub fn read_request(offset: usize, room: usize, path: &[u8]) -> Request {
    let rest = [&(room as u32).to_be_bytes(), path].concat();
    match u32::try_from(offset) {
        Ok(near) => (READ, [&near.to_be_bytes(), &rest[..]].concat()),
        Err(_) => (FAR_READ, [&(offset as u64).to_be_bytes(), &rest[..]].concat()),
    }
}
