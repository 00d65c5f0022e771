//! What is measured: a call on inputs drawn from fixed seeds, made by several sides. Where a case is made, every side
//! is called once and has to give what the Rust of compare/ gives.

use std::fmt::Debug;
use std::rc::Rc;

use compare::disk::{Disk, HIGH_DENSITY};

/// A floppy in the old file system, and the same in the Fast File System.
pub const FLOPPY: Disk = Disk::OLD;
pub const FAST: Disk = Disk::FAST;

/// High-density disks of both.
pub const LARGE: Disk = Disk::OLD.with_blocks(HIGH_DENSITY);
pub const LARGE_FAST: Disk = Disk::FAST.with_blocks(HIGH_DENSITY);

/// One of several ways to do the same.
pub struct Side {
    pub name: &'static str,
    pub run: Box<dyn FnMut()>,
}

impl Side {
    pub fn new(name: &'static str, run: impl FnMut() + 'static) -> Side {
        Side { name, run: Box::new(run) }
    }
}

/// Something to measure.
pub struct Case {
    pub name: String,
    /// How many inputs a side takes in a turn.
    pub inputs: usize,
    pub sides: Vec<Side>,
}

/// A call on an input, with areas to lend.
pub type Way<I, A, O> = Box<dyn Fn(&I, &mut A) -> O>;

impl Case {
    /// A case of these ways, each under the name of its side. Areas are made with a byte for what a call clears or
    /// overwrites whatever it holds; nothing else in them may depend on it.
    pub fn new<I: 'static, A: PartialEq + 'static, O: Copy + PartialEq + Debug + 'static>(
        name: &str,
        inputs: &Rc<Vec<I>>,
        areas: impl Fn(&I, u8) -> A,
        opinion: impl Fn(&I, &mut A) -> O,
        ways: Vec<(&'static str, Way<I, A, O>)>,
    ) -> Case {
        let outcome = |input: &I, call: &dyn Fn(&I, &mut A) -> O, byte: u8| {
            let mut left = areas(input, byte);
            (call(input, &mut left), left)
        };
        let due = |input: &I| {
            let (answer, left) = outcome(input, &opinion, 0x55);
            for (side, way) in &ways {
                let (given, left_too) = outcome(input, way, 0xAA);
                assert_eq!(given, answer, "{name}, {side}");
                assert!(left_too == left, "{name}, {side}: other bytes");
            }
            answer
        };
        let answers: Rc<Vec<O>> = Rc::new(inputs.iter().map(due).collect());
        let side = |(side, way): (&'static str, Way<I, A, O>)| {
            let (inputs, answers) = (inputs.clone(), answers.clone());
            let mut areas = areas(&inputs[0], 0);
            Side::new(side, move || {
                for (input, answer) in inputs.iter().zip(answers.iter()) {
                    assert!(way(input, &mut areas) == *answer);
                }
            })
        };
        Case { name: name.to_string(), inputs: inputs.len(), sides: ways.into_iter().map(side).collect() }
    }
}

/// What is said of a disk after the name of a call; nothing of a floppy in the old file system.
pub fn on(disk: &Disk) -> String {
    let size = if disk.blocks == HIGH_DENSITY { ", high density" } else { "" };
    let system = if disk.has_data_words() { "" } else { ", Fast File System" };
    let names = if disk.is_international() { ", international" } else { "" };
    format!("{size}{system}{names}")
}

/// A number with commas, as it stands in the tables.
pub fn written(number: usize) -> String {
    let digits = number.to_string();
    let place = |(at, digit): (usize, char)| {
        let comma = (at > 0 && (digits.len() - at).is_multiple_of(3)).then_some(',');
        comma.into_iter().chain([digit])
    };
    digits.chars().enumerate().flat_map(place).collect()
}
