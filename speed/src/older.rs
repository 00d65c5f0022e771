//! An older archive of the library, linked to a shared object and loaded beside the present one: so one run has both.

use std::ffi::{c_char, c_int, c_void, CStr, CString};

use jufferdeeg::{fault, AuditNumbers, Hunk, ProgramNumbers, ReadNumbers};

type Audit = unsafe extern "C" fn(u32, *const u8, usize, *mut u8, usize) -> AuditNumbers;
type Read = unsafe extern "C" fn(u32, *const u8, usize, *const u8, usize, usize, *mut u8, usize) -> ReadNumbers;
type Reason = unsafe extern "C" fn(u32, *mut u8, usize) -> usize;

/// The same before a call named a number of blocks: they are for floppies alone.
type FloppyAudit = unsafe extern "C" fn(*const u8, usize, *mut u8, usize) -> AuditNumbers;
type FloppyRead = unsafe extern "C" fn(*const u8, usize, *const u8, usize, usize, *mut u8, usize) -> ReadNumbers;

#[rustfmt::skip]
type Load = unsafe extern "C" fn(*const u8, usize, *const u32, usize, *mut u8, usize, *mut Hunk, usize,
    *mut u8, usize) -> ProgramNumbers;
#[rustfmt::skip]
type Move = unsafe extern "C" fn(*const u8, usize, *const u32, usize, *const u32, usize, *mut u8, usize,
    *mut Hunk, usize, *mut u8, usize) -> ProgramNumbers;

extern "C" {
    fn dlopen(file: *const c_char, how: c_int) -> *mut c_void;
    fn dlsym(library: *mut c_void, name: *const c_char) -> *mut c_void;
}

/// Its audit and its read, which must be declared as they are today, or as they were for floppies alone.
#[derive(Clone, Copy)]
enum Disks {
    Named(Audit, Read),
    Floppies(FloppyAudit, FloppyRead),
}

#[derive(Clone, Copy)]
pub struct Older {
    disks: Disks,
    /// Its load and its move, if the records of their tables are those of today.
    programs: Option<(Load, Move)>,
}

/// An archive's sentence for a refusal; empty if it has none, or is from before there were sentences.
fn sentence(reason: Option<Reason>, number: u32) -> String {
    let mut room = [0; jufferdeeg::REASON_BYTES];
    let length = reason.map_or(0, |reason| unsafe { reason(number, room.as_mut_ptr(), room.len()) });
    String::from_utf8_lossy(&room[..length.min(room.len())]).into_owned()
}

impl Older {
    /// From a shared object, by its path. It is never unloaded, so the functions stay.
    pub fn load_from(file: &str) -> Older {
        const NOW: c_int = 2; // Linux: RTLD_NOW
        let path = CString::new(file).expect("a path");
        // an archive of this library runs nothing when it is loaded
        let library = unsafe { dlopen(path.as_ptr(), NOW) };
        assert!(!library.is_null(), "{file}: this shared object cannot be loaded");
        let known = |name: &CStr| {
            let symbol = unsafe { dlsym(library, name.as_ptr()) };
            (!symbol.is_null()).then_some(symbol)
        };
        let symbol = |name: &CStr| known(name).unwrap_or_else(|| panic!("{file} has no {name:?}"));
        // Functions of the header under these names. No symbol shows how they are declared, but sentences do: that for
        // 1 speaks of both sizes since a number of blocks is named, and there is one for 43 since records have a kind
        // of memory.
        unsafe {
            let reason = known(c"jufferdeeg_reason").map(|it| std::mem::transmute::<*mut c_void, Reason>(it));
            let (audit, read) = (symbol(c"jufferdeeg_audit"), symbol(c"jufferdeeg_read"));
            let disks = if sentence(reason, fault::IMAGE_LENGTH).contains("1760 blocks") {
                let read = std::mem::transmute::<*mut c_void, Read>(read);
                Disks::Named(std::mem::transmute::<*mut c_void, Audit>(audit), read)
            } else {
                let read = std::mem::transmute::<*mut c_void, FloppyRead>(read);
                Disks::Floppies(std::mem::transmute::<*mut c_void, FloppyAudit>(audit), read)
            };
            let programs = (!sentence(reason, fault::BOTH_MEMORIES).is_empty()).then(|| {
                let load = std::mem::transmute::<*mut c_void, Load>(symbol(c"jufferdeeg_load"));
                (load, std::mem::transmute::<*mut c_void, Move>(symbol(c"jufferdeeg_move")))
            });
            Older { disks, programs }
        }
    }

    /// Whether its load and its move can be called.
    pub fn has_programs(&self) -> bool {
        self.programs.is_some()
    }

    // The calls are as safe as those of include/rust: slices lend their own pointers and lengths. An archive for
    // floppies refuses any other image.

    pub fn audit(&self, blocks: u32, image: &[u8], claim: &mut [u8]) -> AuditNumbers {
        let (from, bytes, to, room) = (image.as_ptr(), image.len(), claim.as_mut_ptr(), claim.len());
        match self.disks {
            Disks::Named(audit, _) => unsafe { audit(blocks, from, bytes, to, room) },
            Disks::Floppies(audit, _) => unsafe { audit(from, bytes, to, room) },
        }
    }

    pub fn read(&self, blocks: u32, image: &[u8], path: &[u8], offset: usize, output: &mut [u8]) -> ReadNumbers {
        let (from, bytes, name, length) = (image.as_ptr(), image.len(), path.as_ptr(), path.len());
        let (to, room) = (output.as_mut_ptr(), output.len());
        match self.disks {
            Disks::Named(_, read) => unsafe { read(blocks, from, bytes, name, length, offset, to, room) },
            Disks::Floppies(_, read) => unsafe { read(from, bytes, name, length, offset, to, room) },
        }
    }

    #[rustfmt::skip]
    pub fn load(&self, file: &[u8], bases: &[u32],
                memory: &mut [u8], table: &mut [Hunk], work: &mut [u8]) -> ProgramNumbers {
        let (load, _) = self.programs.expect("a load");
        unsafe {
            load(file.as_ptr(), file.len(), bases.as_ptr(), bases.len(), memory.as_mut_ptr(), memory.len(),
                table.as_mut_ptr(), table.len(), work.as_mut_ptr(), work.len())
        }
    }

    #[rustfmt::skip]
    pub fn move_program(&self, file: &[u8], old: &[u32], new: &[u32],
                        memory: &mut [u8], table: &mut [Hunk], work: &mut [u8]) -> ProgramNumbers {
        let (_, relocate) = self.programs.expect("a move");
        unsafe {
            relocate(file.as_ptr(), file.len(), old.as_ptr(), old.len(), new.as_ptr(), new.len(),
                memory.as_mut_ptr(), memory.len(), table.as_mut_ptr(), table.len(), work.as_mut_ptr(), work.len())
        }
    }
}
