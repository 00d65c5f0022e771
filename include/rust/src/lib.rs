//! Audits images of floppies of 880 KB and 1,760 KB, of the old file system or of the Fast File System, plain or
//! international, finds and reads their files, checks program files, loads them into memory and moves loaded programs
//! to other addresses.
//!
//! These are the calls of `include/jufferdeeg.h` as safe functions: a slice is just what they ask for. Whatever its
//! bytes, every call ends and stays inside what it is lent. The header says what each call is lent, what it leaves and
//! which numbers it gives.
//!
//! ```no_run
//! let image = std::fs::read("disk.adf")?;
//! let mut claim = vec![0; jufferdeeg::MOST_CLAIM_BYTES];
//! let answer = jufferdeeg::audit(jufferdeeg::ANY_SIZE, &image, &mut claim);
//! if answer.number == jufferdeeg::fault::BLOCK_SUM {
//!     println!("block {} is damaged", answer.place);
//! } else if answer.number != 0 {
//!     println!("{}, place {}", jufferdeeg::reason(answer.number), answer.place);
//! }
//! # Ok::<(), std::io::Error>(())
//! ```

/// The version of this crate, as `JUFFERDEEG_VERSION` of the header.
pub const VERSION: &str = env!("CARGO_PKG_VERSION");

/// The number of blocks that a call names to take an image of either size.
pub const ANY_SIZE: u32 = 0;
/// The blocks of an image of 880 KB.
pub const DOUBLE_DENSITY: u32 = 1_760;
/// The blocks of an image of 1,760 KB.
pub const HIGH_DENSITY: u32 = 3_520;
/// The bytes of the largest image.
pub const MOST_IMAGE_BYTES: usize = 1_802_240;
/// The bytes of a claim area that is never short; a byte for each block is enough.
pub const MOST_CLAIM_BYTES: usize = 3_520;
/// The most hunks of a program: a table of so many records is never short.
pub const MOST_HUNKS: usize = 64;
/// The most bytes of a loaded program: memory and a work area of so many are never short.
pub const MOST_BYTES: usize = 16_777_216;

/// Room for any sentence of [`reason_into`].
pub const REASON_BYTES: usize = 128;

/// `kind` of [`FindNumbers`] for a directory.
pub const DIRECTORY: u32 = 2;
/// `kind` of [`FindNumbers`] for a file.
pub const FILE: u32 = 0xFFFF_FFFD;

/// `kind` of [`Hunk`] for code.
pub const CODE: u32 = 0x3E9;
/// `kind` of [`Hunk`] for data.
pub const DATA: u32 = 0x3EA;
/// `kind` of [`Hunk`] for bss.
pub const BSS: u32 = 0x3EB;

/// `memory` of [`Hunk`] if it asks for none in particular.
pub const ANY_MEMORY: u32 = 0;
/// `memory` of [`Hunk`] if it asks for chip memory.
pub const CHIP_MEMORY: u32 = 1;
/// `memory` of [`Hunk`] if it asks for fast memory.
pub const FAST_MEMORY: u32 = 2;

/// The numbers of refusals. In brackets the place: the key of a block, or a key just as it was read; a component of
/// the path, counted from 0; the byte of a word of the program file; an entry of the bases, counted from 0. The root is
/// block 880 of 1,760 blocks, and block 1,760 of 3,520.
pub mod fault {
    /// `[0]` no disk that is asked for has the image's length.
    pub const IMAGE_LENGTH: u32 = 1;
    /// `[0]` the claim area is short.
    pub const CLAIM_AREA: u32 = 2;
    /// `[0]` the boot tag is not 44 4F 53 and 00, 01, 02 or 03.
    pub const BOOT_TAG: u32 = 3;
    /// `[root]` a word of the root that has one value only is wrong.
    pub const ROOT_WORDS: u32 = 4;
    /// `[key]` it is not in 2 to the last block of the disk.
    pub const BAD_KEY: u32 = 5;
    /// `[key]` audit: it is claimed already; find, read: its chain is too long.
    pub const CLAIMED_TWICE: u32 = 6;
    /// `[block]` its words do not add up to 0.
    pub const BLOCK_SUM: u32 = 7;
    /// `[block]` a type word is wrong.
    pub const BLOCK_TYPE: u32 = 8;
    /// `[block]` an entry is a link.
    pub const LINK: u32 = 9;
    /// `[block]` own key, parent, or a directory's last link is wrong.
    pub const WRONG_TIES: u32 = 10;
    /// `[block]` its name is not allowed.
    pub const BAD_NAME: u32 = 11;
    /// `[block]` an entry hangs in another slot than its name's.
    pub const WRONG_SLOT: u32 = 12;
    /// `[block]` an earlier entry of the directory has its name.
    pub const DOUBLE_NAME: u32 = 13;
    /// `[block]` size, key count, list link, or an empty file's first data key.
    pub const FILE_LAYOUT: u32 = 14;
    /// `[block]` the words of a data block; or the one before it names another.
    pub const DATA_LAYOUT: u32 = 15;
    /// `[root]` the root's bitmap words are wrong.
    pub const BITMAP_WORDS: u32 = 16;
    /// `[block]` the lowest whose bit of the bitmap is wrong.
    pub const WRONG_BIT: u32 = 17;
    /// `[component]` it may not be one; `[0]` the path is longer than 255 bytes.
    pub const PATH_FORM: u32 = 18;
    /// `[component]` there is no such name.
    pub const NOT_FOUND: u32 = 19;
    /// `[component]` a file used as a directory, or a directory that is read.
    pub const WRONG_KIND: u32 = 20;
    /// `[0]` the program file is empty, or not made of whole words.
    pub const FILE_LENGTH: u32 = 30;
    /// `[length of the file]` a word is needed after its end.
    pub const EARLY_END: u32 = 31;
    /// `[byte]` the first word, the hunk count, or the first or last hunk number.
    pub const HEADER_WORD: u32 = 32;
    /// `[4]` the file names a library.
    pub const LIBRARY: u32 = 33;
    /// `[byte]` a hunk's size is above 65,536 words.
    pub const HUNK_SIZE: u32 = 34;
    /// `[byte]` a block of this type may not stand here.
    pub const MISPLACED_BLOCK: u32 = 35;
    /// `[byte]` a hunk's count of words is above its size.
    pub const BODY_LENGTH: u32 = 36;
    /// `[byte]` a symbol's type is not allowed.
    pub const SYMBOL_TYPE: u32 = 37;
    /// `[byte]` a hunk number or an offset is not allowed.
    pub const BAD_TARGET: u32 = 38;
    /// `[byte]` there is more after the last hunk.
    pub const TRAILING_WORDS: u32 = 39;
    /// `[entry]` a base that is not allowed; `[the first]` not one for each hunk.
    pub const BAD_BASE: u32 = 40;
    /// `[0]` memory, table or work area is short.
    pub const SHORT_ROOM: u32 = 41;
    /// `[byte]` an offset is less than 4 bytes from an earlier one of its hunk.
    pub const NEAR_TARGETS: u32 = 42;
    /// `[byte]` a hunk asks for chip and fast memory at once.
    pub const BOTH_MEMORIES: u32 = 43;
}

// The fields' comments are of the form that compare/tests/archive.rs leaves out when it reads these structs.

/// The answer of [`audit`].
#[repr(C)]
#[derive(Clone, Copy, Debug, Default, PartialEq, Eq)]
pub struct AuditNumbers {
    /** 0, or the number of the refusal, see [`fault`]: then all else but the place is 0. */
    pub number: u32,
    /** Where it refused; 0 if it did not. */
    pub place: usize,
    /** Directories below the root. */
    pub directories: u32,
    /** Files. */
    pub files: u32,
    /** List blocks of files. */
    pub list_blocks: u32,
    /** Data blocks of files. */
    pub data_blocks: u32,
    /** Blocks in use, the root and the bitmap block among them. */
    pub used: u32,
    /** Free blocks: used and free are together the blocks of the disk, less 2. */
    pub free: u32,
}

/// The answer of [`find`].
#[repr(C)]
#[derive(Clone, Copy, Debug, Default, PartialEq, Eq)]
pub struct FindNumbers {
    /** 0, or the number of the refusal, see [`fault`]: then all else but the place is 0. */
    pub number: u32,
    /** Where it refused; 0 if it did not. */
    pub place: usize,
    /** [`DIRECTORY`] or [`FILE`]. */
    pub kind: u32,
    /** The key of its block. */
    pub key: u32,
    /** The size of a file, as its header says; 0 for a directory. */
    pub size: u32,
    /** How many entries were looked at. */
    pub compared: u32,
}

/// The answer of [`read`].
#[repr(C)]
#[derive(Clone, Copy, Debug, Default, PartialEq, Eq)]
pub struct ReadNumbers {
    /** 0, or the number of the refusal, see [`fault`]: then all else but the place is 0. */
    pub number: u32,
    /** Where it refused; 0 if it did not. */
    pub place: usize,
    /** How many bytes were copied. */
    pub count: usize,
}

/// One for each hunk of a loaded program.
#[repr(C)]
#[derive(Clone, Copy, Debug, Default, PartialEq, Eq)]
pub struct Hunk {
    /** [`CODE`], [`DATA`] or [`BSS`]. */
    pub kind: u32,
    /** Its first byte in the lent memory. */
    pub place: u32,
    /** In words of 4 bytes. */
    pub size: u32,
    /** The address that it was loaded for. */
    pub base: u32,
    /** What it asks for, [`ANY_MEMORY`], [`CHIP_MEMORY`] or [`FAST_MEMORY`]; nothing else depends on it. */
    pub memory: u32,
}

/// The answer of [`check`], [`load`] and [`move_program`].
#[repr(C)]
#[derive(Clone, Copy, Debug, Default, PartialEq, Eq)]
pub struct ProgramNumbers {
    /** 0, or the number of the refusal, see [`fault`]: then all else but the place is 0. */
    pub number: u32,
    /** Where it refused; 0 if it did not. */
    pub place: usize,
    /** How many hunks the program has. */
    pub hunks: u32,
    /** How much of the memory they take. */
    pub bytes: usize,
}

mod c {
    use super::{AuditNumbers, FindNumbers, Hunk, ProgramNumbers, ReadNumbers};

    #[rustfmt::skip]
    extern "C" {
        pub fn jufferdeeg_reason(number: u32, output: *mut u8, output_bytes: usize) -> usize;
        pub fn jufferdeeg_audit(disk_blocks: u32, image: *const u8, image_bytes: usize,
            claim: *mut u8, claim_bytes: usize) -> AuditNumbers;
        pub fn jufferdeeg_find(disk_blocks: u32, image: *const u8, image_bytes: usize,
            path: *const u8, path_bytes: usize) -> FindNumbers;
        pub fn jufferdeeg_read(disk_blocks: u32, image: *const u8, image_bytes: usize,
            path: *const u8, path_bytes: usize, offset: usize, output: *mut u8, output_bytes: usize) -> ReadNumbers;
        pub fn jufferdeeg_check(file: *const u8, file_bytes: usize) -> ProgramNumbers;
        pub fn jufferdeeg_load(file: *const u8, file_bytes: usize, bases: *const u32, bases_count: usize,
            memory: *mut u8, memory_bytes: usize, table: *mut Hunk, table_records: usize,
            work: *mut u8, work_bytes: usize) -> ProgramNumbers;
        pub fn jufferdeeg_move(file: *const u8, file_bytes: usize, old_bases: *const u32, old_count: usize,
            new_bases: *const u32, new_count: usize, memory: *mut u8, memory_bytes: usize,
            table: *mut Hunk, table_records: usize, work: *mut u8, work_bytes: usize) -> ProgramNumbers;
    }
}

// Each call is safe: a slice's pointer is not null and is aligned, its length is right, and what is lent to be written
// overlaps nothing.

/// Copies the sentence that says what a refusal's number means, as far as it fits; answers the bytes of the whole
/// sentence, and 0 for a number that no refusal has.
pub fn reason_into(number: u32, output: &mut [u8]) -> usize {
    unsafe { c::jufferdeeg_reason(number, output.as_mut_ptr(), output.len()) }
}

/// The sentence that says what a refusal's number means; empty for a number that no refusal has.
pub fn reason(number: u32) -> String {
    let mut room = [0; REASON_BYTES];
    let bytes = reason_into(number, &mut room);
    String::from_utf8_lossy(&room[..bytes]).into_owned()
}

/// Audits an image. It names the number of blocks that the image's disk is to have, [`DOUBLE_DENSITY`] or
/// [`HIGH_DENSITY`], or takes either with [`ANY_SIZE`].
///
/// Deep directories take stack: up to 0.97 MiB was measured for the deepest volume of 1,760 blocks that there can be,
/// and up to 1.94 MiB for that of 3,520. So lend it 1 MiB if 1,760 are named, else 2 MiB.
pub fn audit(disk_blocks: u32, image: &[u8], claim: &mut [u8]) -> AuditNumbers {
    unsafe { c::jufferdeeg_audit(disk_blocks, image.as_ptr(), image.len(), claim.as_mut_ptr(), claim.len()) }
}

/// Finds what a path leads to. The number of blocks is as for [`audit`].
///
/// A path is components with one `/` between two of them, none before the first or after the last, and has at most 255
/// bytes. A component has 1 to 30 bytes, none of them `/` or `:`. The empty path has no component: it is the root.
/// Upper and lower case of a to z are the same, and on an international disk, whose boot tag ends with 02 or 03, those
/// of the letters with accents of ISO 8859-1 too. A path is just its bytes: text in UTF-8 is for the caller to convert.
pub fn find(disk_blocks: u32, image: &[u8], path: &[u8]) -> FindNumbers {
    unsafe { c::jufferdeeg_find(disk_blocks, image.as_ptr(), image.len(), path.as_ptr(), path.len()) }
}

/// Reads a file from an offset on, until the file or the output ends. The path is as for [`find`], and the number of
/// blocks as for [`audit`].
#[rustfmt::skip]
pub fn read(disk_blocks: u32, image: &[u8], path: &[u8], offset: usize, output: &mut [u8]) -> ReadNumbers {
    unsafe {
        c::jufferdeeg_read(disk_blocks, image.as_ptr(), image.len(), path.as_ptr(), path.len(), offset,
            output.as_mut_ptr(), output.len())
    }
}

/// Checks a program file: its hunks, and the bytes that a load needs for them.
pub fn check(file: &[u8]) -> ProgramNumbers {
    unsafe { c::jufferdeeg_check(file.as_ptr(), file.len()) }
}

/// Loads a program file for the given bases: the hunks' addresses on the machine that will run it.
///
/// The bases are exactly one for each hunk, in their order. A base is a multiple of 4; base plus bytes of the hunk are
/// at most 2^32; no two hunks share an address. A hunk of 0 words has none, and may stand anywhere.
///
/// Memory and work area each have the bytes that [`check`] says or more, the table a record for each hunk or more. All
/// of the lent work area is cleared, so lend no more of it than the check says.
#[rustfmt::skip]
pub fn load(file: &[u8], bases: &[u32], memory: &mut [u8], table: &mut [Hunk], work: &mut [u8]) -> ProgramNumbers {
    unsafe {
        c::jufferdeeg_load(file.as_ptr(), file.len(), bases.as_ptr(), bases.len(), memory.as_mut_ptr(), memory.len(),
            table.as_mut_ptr(), table.len(), work.as_mut_ptr(), work.len())
    }
}

/// Moves a loaded program from the old bases to the new ones, each as for [`load`]. (`move` is a word of Rust's.)
#[rustfmt::skip]
pub fn move_program(file: &[u8], old: &[u32], new: &[u32],
                    memory: &mut [u8], table: &mut [Hunk], work: &mut [u8]) -> ProgramNumbers {
    unsafe {
        c::jufferdeeg_move(file.as_ptr(), file.len(), old.as_ptr(), old.len(), new.as_ptr(), new.len(),
            memory.as_mut_ptr(), memory.len(), table.as_mut_ptr(), table.len(), work.as_mut_ptr(), work.len())
    }
}
