//! The calls of the library, whoever makes them.

use crate::audit::{audit, Report};
use crate::counter::SENTENCES;
use crate::loader::{load, relocate, Lent, Loaded};
use crate::lookup::{find, Found};
use crate::program::{read as read_program, Refusal};
use crate::reading::read;

/// Who makes calls. Those that are lent an image name its number of blocks, or none by 0.
pub trait Calls {
    /// Whether it could do with a lent area what it may not.
    const WATCHED: bool;

    /// Audits an image.
    fn audit(&mut self, named: u32, image: &[u8], claim: &mut [u8]) -> Result<Report, Refusal>;

    /// Finds a path.
    fn find(&mut self, named: u32, image: &[u8], path: &[u8]) -> Result<Found, Refusal>;

    /// Reads a file from an offset on.
    fn read(
        &mut self,
        named: u32,
        image: &[u8],
        path: &[u8],
        offset: usize,
        output: &mut [u8],
    ) -> Result<usize, Refusal>;

    /// Checks a program file.
    fn check(&mut self, file: &[u8]) -> Result<Loaded, Refusal>;

    /// Loads a program file.
    fn load(&mut self, file: &[u8], bases: &[u32], lent: Lent) -> Result<Loaded, Refusal>;

    /// Moves a program.
    fn relocate(&mut self, file: &[u8], old: &[u32], new: &[u32], lent: Lent) -> Result<Loaded, Refusal>;

    /// Copies the sentence for a refusal's number, as far as it fits, and answers the length of all of it.
    fn reason(&mut self, number: u32, output: &mut [u8]) -> usize;

    /// What was wrong with the last answer, beside what it says.
    fn fault(&self) -> Option<String> {
        None
    }
}

/// This package.
#[derive(Default)]
pub struct Opinion;

impl Calls for Opinion {
    const WATCHED: bool = false;

    fn audit(&mut self, named: u32, image: &[u8], claim: &mut [u8]) -> Result<Report, Refusal> {
        audit(named, image, claim)
    }

    fn find(&mut self, named: u32, image: &[u8], path: &[u8]) -> Result<Found, Refusal> {
        find(named, image, path)
    }

    fn read(
        &mut self,
        named: u32,
        image: &[u8],
        path: &[u8],
        offset: usize,
        output: &mut [u8],
    ) -> Result<usize, Refusal> {
        read(named, image, path, offset, output)
    }

    fn check(&mut self, file: &[u8]) -> Result<Loaded, Refusal> {
        let hunks = read_program(file)?;
        Ok(Loaded { hunks: hunks.len(), bytes: hunks.iter().map(|hunk| 4 * hunk.size).sum() })
    }

    fn load(&mut self, file: &[u8], bases: &[u32], lent: Lent) -> Result<Loaded, Refusal> {
        load(file, bases, lent)
    }

    fn relocate(&mut self, file: &[u8], old: &[u32], new: &[u32], lent: Lent) -> Result<Loaded, Refusal> {
        relocate(file, old, new, lent)
    }

    fn reason(&mut self, number: u32, output: &mut [u8]) -> usize {
        let sentence = SENTENCES.iter().find(|&&(other, _)| other == number).map_or("", |&(_, text)| text);
        output.iter_mut().zip(sentence.bytes()).for_each(|(place, byte)| *place = byte);
        sentence.len()
    }
}
