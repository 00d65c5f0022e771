//! Who is held to this package: the instrument `probe`, the exported functions, or both. With the exported functions
//! goes the yardstick, in the package of that name.

use std::sync::atomic::{AtomicU64, Ordering};
use std::thread;

use crate::driver::Batch;
use crate::model::{Model, AUDIT, CHECK, DISK, FAR_READ, IMAGE, PATCH};
use crate::native::Exports;

/// Who is asked.
#[derive(Clone, Copy, Debug, PartialEq, Eq)]
pub enum Who {
    /// No one: the answers due are worked out, and that is all.
    Nobody,
    /// The exported functions, and those of the yardstick.
    Exports,
    /// These and `probe`.
    Both,
}

/// Those who are asked. Functions answer each request at once, `probe` all of them in a run at the end.
pub struct Sides {
    functions: Vec<Functions>,
    probe: Option<Batch>,
}

/// The requests without which there is no audit.
const OF_AUDITS: [u32; 4] = [IMAGE, PATCH, DISK, AUDIT];

/// Functions that are asked.
struct Functions {
    name: &'static str,
    model: Model<Exports>,
    /// Whether they have all but the audit in common with others that are asked.
    audits_alone: bool,
}

impl Functions {
    fn all() -> Vec<Functions> {
        let [archive, yardstick, sums_first] = Exports::all();
        let of = |(name, exports), audits_alone| Functions { name, model: Model::new(exports), audits_alone };
        vec![of(archive, false), of(yardstick, false), of(sums_first, true)]
    }
}

impl Sides {
    /// Nothing is asked yet.
    pub fn new(who: Who) -> Sides {
        let functions = if who == Who::Nobody { Vec::new() } else { Functions::all() };
        Sides { functions, probe: (who == Who::Both).then(Batch::new) }
    }

    /// Puts a request to all sides, and the line that it is to be answered with. Panics where functions answer
    /// otherwise, and tells whose they are and what it is about.
    pub fn ask(&mut self, about: &str, number: u32, body: &[u8], answer: &str) {
        for Functions { name, model, audits_alone } in &mut self.functions {
            if *audits_alone && !OF_AUDITS.contains(&number) {
                continue;
            }
            let got = model.answer(number, body);
            assert!(got == answer, "{name}, number {number}, {about}: expected {answer:?}, got {got:?}");
        }
        // these two are none of its requests
        if let Some(probe) = self.probe.as_mut().filter(|_| ![FAR_READ, CHECK].contains(&number)) {
            probe.ask_about(about, number, body, answer);
        }
    }

    /// Ends the input of `probe` as in [`Batch::break_off`].
    pub fn break_off(&mut self, bytes: &[u8], answer: &str) {
        if let Some(probe) = &mut self.probe {
            probe.break_off(bytes, answer);
        }
    }

    /// Runs `probe`, if it is asked; panics where it does not answer as it should.
    pub fn run(self) {
        if let Some(probe) = self.probe {
            probe.compare("probe");
        }
    }
}

/// One of several things for each seed, in turn.
pub fn in_turn<T: Copy>(all: &[T], seed: u64) -> T {
    all[(seed % all.len() as u64) as usize]
}

/// Does this with so many seeds from the first one on, in as many threads as there are processors.
pub fn with_seeds(first: u64, count: u64, run: impl Fn(u64) + Sync) {
    let next = AtomicU64::new(first);
    let threads = thread::available_parallelism().map_or(1, usize::from);
    thread::scope(|scope| {
        for _ in 0..threads {
            scope.spawn(|| loop {
                let seed = next.fetch_add(1, Ordering::Relaxed);
                if seed >= first + count {
                    break;
                }
                run(seed);
            });
        }
    });
}

#[cfg(test)]
mod tests {
    use super::*;
    use crate::model::FIND;
    use crate::native::{self, ARCHIVE};
    use jufferdeeg::{AuditNumbers, FindNumbers};
    use std::panic::{catch_unwind, AssertUnwindSafe};

    /// What a panic says.
    fn message(run: impl FnOnce()) -> String {
        let panic = catch_unwind(AssertUnwindSafe(run)).expect_err("a panic");
        panic.downcast_ref::<String>().expect("a message").clone()
    }

    /// Sides that ask these functions alone.
    fn asking(functions: native::Functions, audits_alone: bool) -> Sides {
        let model = Model::new(Exports::with(functions));
        Sides { functions: vec![Functions { name: "these", model, audits_alone }], probe: None }
    }

    #[test]
    fn a_difference_is_told() {
        let mut sides = Sides::new(Who::Exports);
        sides.ask("an image", IMAGE, &[0; 100], "image 100");
        sides.ask("a short image", FIND, b"a", "refused 1 0");
        let told = message(|| sides.ask("a short image", FIND, b"a", "refused 2 0"));
        let due = r#"exported functions, number 4, a short image: expected "refused 2 0", got "refused 1 0""#;
        assert_eq!(told, due);
        let find: fn(u32, &[u8], &[u8]) -> _ = |blocks, image, path| {
            let mut answer = (ARCHIVE.find)(blocks, image, path);
            answer.place = 3;
            answer
        };
        let mut sides = asking(native::Functions { find, ..ARCHIVE }, false);
        let told = message(|| sides.ask("no image", FIND, b"a", "refused 1 0"));
        assert_eq!(told, r#"these, number 4, no image: expected "refused 1 0", got "refused 1 3""#);
    }

    /// Those of the yardstick have their names, and where two have all but the audit in common, one is asked the rest.
    #[test]
    fn every_audit_is_asked() {
        let names: Vec<&str> = Functions::all().iter().map(|functions| functions.name).collect();
        assert_eq!(names, ["exported functions", "yardstick", "yardstick, sums first"]);
        let slip: fn(u32, &[u8], &mut [u8]) -> _ = |_, _, _| AuditNumbers { number: 9, ..AuditNumbers::default() };
        let find: fn(u32, &[u8], &[u8]) -> _ = |_, _, _| FindNumbers { number: 9, ..FindNumbers::default() };
        let slipped = native::Functions { audit: slip, find, ..ARCHIVE };
        let refused = |number: u32| format!("refused {number} 0");
        for audits_alone in [false, true] {
            let mut sides = asking(slipped, audits_alone);
            let told = message(|| sides.ask("", AUDIT, &[0; 4], &format!("{} claim 0", refused(1))));
            assert!(told.contains(&refused(9)), "{told}");
            if audits_alone {
                sides.ask("no image", FIND, b"a", "any answer");
            } else {
                assert!(message(|| sides.ask("", FIND, b"a", &refused(1))).contains(&refused(9)));
            }
        }
    }

    #[test]
    fn nobody_is_asked() {
        let mut sides = Sides::new(Who::Nobody);
        sides.ask("nothing", FIND, b"a", "any answer");
        sides.run();
    }

    #[test]
    fn every_seed_has_its_turn_and_a_failure_is_one() {
        assert_eq!([0, 5, 6, 7, u64::MAX].map(|seed| in_turn(b"abc", seed)), *b"acaba");
        let sum = AtomicU64::new(0);
        with_seeds(5, 10, |seed| _ = sum.fetch_add(1 << (4 * (seed - 5)), Ordering::Relaxed));
        assert_eq!(sum.into_inner(), 0x11_1111_1111);
        assert!(catch_unwind(|| with_seeds(0, 3, |seed| assert!(seed != 2))).is_err());
    }
}
