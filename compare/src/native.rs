//! The functions that the archive exports, called as they are, and what is wrong with the form of an answer: a place
//! where nothing is refused, or numbers beside a refusal. Those of the yardstick are called in the same way.

use std::slice::from_raw_parts_mut;

use jufferdeeg::{AuditNumbers, FindNumbers, Hunk, ProgramNumbers, ReadNumbers};

use crate::audit::Report;
use crate::calls::Calls;
use crate::loader::{Lent, Loaded, RECORD};
use crate::lookup::Found;
use crate::program::Refusal;

/// The functions, as the crate for Rust has them; tests put others in their place.
#[derive(Clone, Copy)]
pub(crate) struct Functions {
    pub(crate) audit: fn(u32, &[u8], &mut [u8]) -> AuditNumbers,
    pub(crate) find: fn(u32, &[u8], &[u8]) -> FindNumbers,
    pub(crate) read: fn(u32, &[u8], &[u8], usize, &mut [u8]) -> ReadNumbers,
    pub(crate) check: fn(&[u8]) -> ProgramNumbers,
    pub(crate) load: fn(&[u8], &[u32], &mut [u8], &mut [Hunk], &mut [u8]) -> ProgramNumbers,
    pub(crate) relocate: fn(&[u8], &[u32], &[u32], &mut [u8], &mut [Hunk], &mut [u8]) -> ProgramNumbers,
    pub(crate) reason: fn(u32, &mut [u8]) -> usize,
}

/// Those of the archive.
pub(crate) const ARCHIVE: Functions = Functions {
    audit: jufferdeeg::audit,
    find: jufferdeeg::find,
    read: jufferdeeg::read,
    check: jufferdeeg::check,
    load: jufferdeeg::load,
    relocate: jufferdeeg::move_program,
    reason: jufferdeeg::reason_into,
};

/// Those of the yardstick, which has no sentences: they are the archive's.
pub(crate) const YARDSTICK: Functions = Functions {
    audit: yardstick::audit,
    find: yardstick::find,
    read: yardstick::read,
    check: yardstick::check,
    load: yardstick::load,
    relocate: yardstick::move_program,
    ..ARCHIVE
};

/// The same with the other audit of the yardstick.
pub(crate) const SUMS_FIRST: Functions = Functions { audit: yardstick::audit_sums_first, ..YARDSTICK };

/// The exported functions.
pub struct Exports {
    functions: Functions,
    fault: Option<String>,
}

impl Default for Exports {
    fn default() -> Exports {
        Exports::with(ARCHIVE)
    }
}

/// The records of a table; numbers after the last whole one stay out.
fn records(table: &mut [u32]) -> &mut [Hunk] {
    const { assert!(size_of::<Hunk>() == RECORD * size_of::<u32>() && align_of::<Hunk>() == align_of::<u32>()) };
    // a record is so many numbers, no more and at no other addresses, and any numbers are one
    unsafe { from_raw_parts_mut(table.as_mut_ptr().cast(), table.len() / RECORD) }
}

impl Exports {
    /// These functions in the place of the exported ones.
    pub(crate) fn with(functions: Functions) -> Exports {
        Exports { functions, fault: None }
    }

    /// All functions that are held to this package, each with a name for messages: the exported ones come first, and
    /// then those of the yardstick. The last ones differ from those before them in the audit alone.
    pub fn all() -> [(&'static str, Exports); 3] {
        [("exported functions", ARCHIVE), ("yardstick", YARDSTICK), ("yardstick, sums first", SUMS_FIRST)]
            .map(|(name, functions)| (name, Exports::with(functions)))
    }

    /// The answer of a call, which has to be of one of two forms: accepted, with place 0, or refused, with nothing but
    /// 0 beside number and place.
    fn answer<T>(&mut self, number: u32, place: usize, accepted: T, others: &[usize]) -> Result<T, Refusal> {
        self.fault = match number {
            0 if place != 0 => Some(format!("accepted with place {place}")),
            1.. if others.iter().any(|&other| other != 0) => Some(format!("refused with numbers {others:?}")),
            _ => None,
        };
        match number {
            0 => Ok(accepted),
            _ => Err(Refusal { number, place }),
        }
    }

    fn program(&mut self, answer: ProgramNumbers) -> Result<Loaded, Refusal> {
        let ProgramNumbers { number, place, hunks, bytes } = answer;
        let loaded = Loaded { hunks: hunks as usize, bytes };
        self.answer(number, place, loaded, &[hunks as usize, bytes])
    }
}

impl Calls for Exports {
    const WATCHED: bool = true;

    fn audit(&mut self, named: u32, image: &[u8], claim: &mut [u8]) -> Result<Report, Refusal> {
        let AuditNumbers { number, place, directories, files, list_blocks, data_blocks, used, free } =
            (self.functions.audit)(named, image, claim);
        let report = Report { directories, files, list_blocks, data_blocks, used, free };
        let all = [directories, files, list_blocks, data_blocks, used, free];
        self.answer(number, place, report, &all.map(|number| number as usize))
    }

    fn find(&mut self, named: u32, image: &[u8], path: &[u8]) -> Result<Found, Refusal> {
        let FindNumbers { number, place, kind, key, size, compared } = (self.functions.find)(named, image, path);
        let found = Found { kind, key, size, compared };
        self.answer(number, place, found, &[kind, key, size, compared].map(|number| number as usize))
    }

    fn read(
        &mut self,
        named: u32,
        image: &[u8],
        path: &[u8],
        offset: usize,
        output: &mut [u8],
    ) -> Result<usize, Refusal> {
        let ReadNumbers { number, place, count } = (self.functions.read)(named, image, path, offset, output);
        self.answer(number, place, count, &[count])
    }

    fn check(&mut self, file: &[u8]) -> Result<Loaded, Refusal> {
        let answer = (self.functions.check)(file);
        self.program(answer)
    }

    fn load(&mut self, file: &[u8], bases: &[u32], lent: Lent) -> Result<Loaded, Refusal> {
        let answer = (self.functions.load)(file, bases, lent.memory, records(lent.table), lent.work);
        self.program(answer)
    }

    fn relocate(&mut self, file: &[u8], old: &[u32], new: &[u32], lent: Lent) -> Result<Loaded, Refusal> {
        let answer = (self.functions.relocate)(file, old, new, lent.memory, records(lent.table), lent.work);
        self.program(answer)
    }

    fn reason(&mut self, number: u32, output: &mut [u8]) -> usize {
        self.fault = None;
        (self.functions.reason)(number, output)
    }

    fn fault(&self) -> Option<String> {
        self.fault.clone()
    }
}

#[cfg(test)]
mod tests {
    use super::*;
    use crate::disk::Disk;
    use crate::model::Model;
    use crate::programs::{worked_file, Room};
    use crate::rng::Rng;
    use crate::volumes::{any_style, Kind, Plan, Volume};
    use std::hint::black_box;

    const BASES: [u32; 2] = [0x3000, 0x7000];

    /// A volume with a file of 1,000 bytes.
    fn volume() -> Vec<u8> {
        let (mut rng, mut plan) = (Rng::new(160), Plan::new(&Disk::OLD));
        plan.add_named(None, b"a", Kind::File(1_000));
        let style = any_style(&mut rng);
        Volume::new(&mut rng, &plan, style).image
    }

    /// The lines of every call, accepted and refused, with the image's number of blocks named, with another and with
    /// none; the room of a move is less than that of the load.
    fn lines<C: Calls>(mut model: Model<C>) -> Vec<String> {
        let room = Room { memory: 51, records: 4, work: 45 };
        let less = Room { memory: 43, records: 3, work: 45 };
        model.take_image(&volume());
        model.take_file(&worked_file());
        vec![
            model.audit(1_770),
            model.audit(1_700),
            model.find(b"A"),
            model.find(b"b"),
            model.read(b"a", 10, 2_000),
            model.read(b"b", 10, 2_000),
            model.name(3_520),
            model.audit(1_770),
            model.find(b"A"),
            model.read(b"a", 10, 2_000),
            model.name(0),
            model.audit(1_770),
            model.find(b"A"),
            model.read(b"a", 10, 2_000),
            model.check(),
            model.load(room, &BASES),
            model.relocate(less, &BASES, &[0, 0x1000]),
            model.relocate(less, &BASES, &[0, 8]),
            model.load(room, &[0, 8]),
            model.take_file(&worked_file()[..100]),
            model.check(),
            model.reason(9, 25),
            model.reason(21, 5),
        ]
    }

    /// The first line in which functions differ from what is due.
    fn difference(functions: Functions) -> Option<String> {
        let due = lines(Model::<crate::calls::Opinion>::default());
        let got = lines(Model::new(Exports::with(functions)));
        due.into_iter().zip(got).find(|(due, got)| due != got).map(|(_, got)| got)
    }

    #[test]
    fn the_exported_functions_answer_as_is_due() {
        assert_eq!([ARCHIVE, YARDSTICK, SUMS_FIRST].map(difference), [None, None, None]);
    }

    /// Writes what may not be written, in a lent slice or around it, as only code that is not Rust could.
    fn spoil<T>(slice: &[T], place: isize, new: T) {
        unsafe { black_box(slice.as_ptr().cast_mut()).offset(place).write_volatile(new) }
    }

    fn end<T>(slice: &[T]) -> isize {
        slice.len() as isize
    }

    /// A function that does as it should and then spoils something.
    macro_rules! spoiling {
        ($call:ident($($lent:ident),*), $slice:ident, $place:expr, $new:expr) => {
            |$($lent),*| {
                let answer = (ARCHIVE.$call)($($lent),*);
                spoil($slice, $place, $new);
                answer
            }
        };
    }

    /// Functions, one of which spoils this.
    macro_rules! with {
        ($call:ident($($lent:ident),*), $slice:ident, $place:expr, $new:expr) => {
            Functions { $call: spoiling!($call($($lent),*), $slice, $place, $new), ..ARCHIVE }
        };
    }

    #[test]
    fn writing_where_nothing_may_be_written_is_seen() {
        const ZERO: Hunk = Hunk { kind: 0, place: 0, size: 0, base: 0, memory: 0 };
        for (name, functions) in [
            ("image", with!(audit(blocks, image, claim), image, 5, !image[5])),
            ("image", with!(audit(blocks, image, claim), image, -1, 0)),
            ("image", with!(audit(blocks, image, claim), image, end(image), 0)),
            ("claim area", with!(audit(blocks, image, claim), claim, -1, 0)),
            ("claim area", with!(audit(blocks, image, claim), claim, end(claim), 1)),
            ("image", with!(find(blocks, image, path), image, 901_119, !image[901_119])),
            ("path", with!(find(blocks, image, path), path, 0, !path[0])),
            ("path", with!(find(blocks, image, path), path, -1, 0)),
            ("path", with!(find(blocks, image, path), path, end(path), 0)),
            ("image", with!(read(blocks, image, path, offset, output), image, 0, !image[0])),
            ("path", with!(read(blocks, image, path, offset, output), path, end(path), 0)),
            ("output", with!(read(blocks, image, path, offset, output), output, -1, 0)),
            ("output", with!(read(blocks, image, path, offset, output), output, end(output), 0)),
            ("file", with!(check(file), file, 99, !file[99])),
            ("file", with!(check(file), file, -1, 0)),
            ("file", with!(check(file), file, end(file), 0)),
            ("file", with!(load(file, bases, memory, table, work), file, 0, !file[0])),
            ("bases", with!(load(file, bases, memory, table, work), bases, 1, !bases[1])),
            ("bases", with!(load(file, bases, memory, table, work), bases, -1, 0)),
            ("memory", with!(load(file, bases, memory, table, work), memory, end(memory), 0)),
            ("table", with!(load(file, bases, memory, table, work), table, end(table), ZERO)),
            ("table", with!(load(file, bases, memory, table, work), table, -1, ZERO)),
            ("work area", with!(load(file, bases, memory, table, work), work, end(work), 0)),
            ("work area", with!(load(file, bases, memory, table, work), work, -1, 0)),
            ("output", with!(reason(number, output), output, -1, 0)),
            ("output", with!(reason(number, output), output, end(output), 0)),
            ("file", with!(relocate(file, old, new, memory, table, work), file, end(file), 0)),
            ("old bases", with!(relocate(file, old, new, memory, table, work), old, 0, !old[0])),
            ("new bases", with!(relocate(file, old, new, memory, table, work), new, 1, !new[1])),
            ("new bases", with!(relocate(file, old, new, memory, table, work), new, end(new), 0)),
            ("memory", with!(relocate(file, old, new, memory, table, work), memory, -1, 0)),
            ("table", with!(relocate(file, old, new, memory, table, work), table, -1, ZERO)),
            ("work area", with!(relocate(file, old, new, memory, table, work), work, end(work), 0)),
        ] {
            let line = difference(functions).unwrap_or_else(|| panic!("{name}: not seen"));
            assert!(line.ends_with(&format!(", {name} overwritten")), "{name}: {line}");
        }
        // a move is lent less than is held
        for functions in [
            with!(relocate(file, old, new, memory, table, work), memory, end(memory), 0),
            with!(relocate(file, old, new, memory, table, work), table, end(table), ZERO),
        ] {
            let line = difference(functions).expect("more than was lent");
            assert!(line.ends_with(", memory or table overwritten after what was lent"), "{line}");
        }
    }

    /// A function whose answer is changed afterwards.
    macro_rules! changed {
        ($call:ident($($lent:ident),*), $answer:ident, $change:expr) => {
            Functions {
                $call: |$($lent),*| {
                    #[allow(unused_mut)]
                    let mut $answer = (ARCHIVE.$call)($($lent),*);
                    $change;
                    $answer
                },
                ..ARCHIVE
            }
        };
    }

    #[test]
    fn wrong_answers_are_seen() {
        for (number, functions) in [
            // whatever is named is taken for another number
            Functions { audit: |_, image, claim| (ARCHIVE.audit)(1_760, image, claim), ..ARCHIVE },
            Functions { find: |_, image, path| (ARCHIVE.find)(1_760, image, path), ..ARCHIVE },
            Functions {
                read: |_, image, path, o, output| (ARCHIVE.read)(1_760, image, path, o, output),
                ..ARCHIVE
            },
            Functions { audit: |_, image, claim| (ARCHIVE.audit)(0, image, claim), ..ARCHIVE },
            Functions { find: |_, image, path| (ARCHIVE.find)(0, image, path), ..ARCHIVE },
            Functions { read: |_, image, path, o, output| (ARCHIVE.read)(0, image, path, o, output), ..ARCHIVE },
            Functions { audit: |blocks, image, claim| (ARCHIVE.audit)(blocks.max(1), image, claim), ..ARCHIVE },
            changed!(audit(blocks, image, claim), answer, answer.free ^= 1),
            changed!(audit(blocks, image, claim), answer, answer.number ^= 3),
            changed!(audit(blocks, image, claim), answer, answer.place += 1),
            changed!(audit(blocks, image, claim), answer, claim[1_699] ^= 1),
            changed!(find(blocks, image, path), answer, answer.kind += 1),
            changed!(find(blocks, image, path), answer, answer.compared += 1),
            changed!(find(blocks, image, path), answer, answer.place += usize::from(answer.number > 0)),
            changed!(read(blocks, image, path, offset, output), answer, answer.count += 1),
            changed!(read(blocks, image, path, offset, output), answer, output[990] ^= 1),
            changed!(read(blocks, image, path, offset, output), answer, output[0] ^= 1),
            changed!(check(file), answer, answer.hunks += 1),
            changed!(check(file), answer, answer.bytes += 1),
            changed!(check(file), answer, answer.place += usize::from(answer.number > 0)),
            changed!(load(file, bases, memory, table, work), answer, answer.bytes += 4),
            changed!(load(file, bases, memory, table, work), answer, memory[50] ^= 1),
            changed!(load(file, bases, memory, table, work), answer, table[3].base ^= 1),
            changed!(load(file, bases, memory, table, work), answer, table[1].memory ^= 1),
            changed!(load(file, bases, memory, table, work), answer, work[44] ^= 1),
            changed!(reason(number, output), answer, answer += 1),
            changed!(reason(number, output), answer, output[0] ^= 0x20),
            changed!(reason(number, output), answer, output[4] ^= 1),
            changed!(relocate(file, old, new, memory, table, work), answer, answer.hunks += 1),
            changed!(relocate(file, old, new, memory, table, work), answer, answer.place += 1),
            changed!(relocate(file, old, new, memory, table, work), answer, memory[0] ^= 1),
            changed!(relocate(file, old, new, memory, table, work), answer, table[0].memory ^= 2),
        ]
        .into_iter()
        .enumerate()
        {
            assert!(difference(functions).is_some(), "{number}");
        }
    }

    #[test]
    fn answers_of_a_wrong_form_are_seen() {
        for (fault, functions) in [
            ("accepted with place 7", changed!(find(blocks, image, path), answer, answer.place = 7)),
            (
                "refused with numbers [2, 0, 0, 0]",
                changed!(find(blocks, image, path), answer, {
                    answer.kind = if answer.number == 0 { answer.kind } else { 2 }
                }),
            ),
            (
                "refused with numbers [0, 4]",
                changed!(load(file, bases, memory, table, work), answer, {
                    answer.bytes = if answer.number == 0 { answer.bytes } else { 4 }
                }),
            ),
        ] {
            let line = difference(functions).expect(fault);
            assert!(line.ends_with(&format!(", {fault}")), "{line}");
        }
    }
}
