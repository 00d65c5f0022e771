//! A second opinion on the disks that the Rattle library reads.
//!
//! Everything here was written from the rules of the format alone, without a look at the library's code, so that a
//! misreading has to be made twice before the two agree on it. Where docs/FORMAT.md gives a rule as a step by step
//! recipe, this side prefers another way to the same number.
//!
//! What is judged, from the smallest piece upward:
//!
//! - [`words`]: the big-endian words of a block and their sum;
//! - [`disk`]: which kind of disk an image is of, and the numbers that follow from size and kind;
//! - [`names`]: which names are allowed, how they fold, and the slot they hang in;
//! - [`sizes`]: how many blocks a file of some size needs and what each of them holds;
//! - [`bitmap`]: where the free bit of a block stands;
//! - [`blocks`]: the tests of one block, each answered by a refusal's number;
//! - [`audit`]: the audit of a volume, which meets every block in the order of the walk;
//! - [`declared`]: the same question asked of the volume as a whole, without an order;
//! - [`lookup`]: finding a path, on any image;
//! - [`reading`]: reading a file's bytes, on any image;
//! - [`program`]: the check of a program file;
//! - [`loader`]: loading a program and moving it.
//!
//! What holds the Rattle programs and the exported functions to it:
//!
//! - [`rng`]: numbers drawn from a fixed seed, so that a failure can be had again;
//! - [`programs`]: good programs to load, drawn at random;
//! - [`bad_programs`]: what can be wrong with them, each with the refusal due for it;
//! - [`volumes`]: good volumes to audit, drawn at random, with what each of their blocks is;
//! - [`bad_volumes`]: what can be wrong with them, each with the refusal due for it;
//! - [`kinds`]: the bytes of a volume under the tag of another kind of disk, with the answers due for them;
//! - [`paths`]: paths to look for on good volumes, each with the answer due;
//! - [`calls`]: the calls of the library, whoever makes them;
//! - [`areas`]: areas to lend, with guards around them;
//! - [`native`]: the functions that the archive exports;
//! - [`model`]: what the instrument is to answer, request by request;
//! - [`talk`]: an image that the instrument holds, and its patches;
//! - [`samples`]: the files of the folder `samples`;
//! - [`counter`]: what the counter's tool is to say;
//! - [`driver`]: runs a Rattle program on a batch of requests and compares every line it answers;
//! - [`sides`]: puts requests to the instrument, to the exported functions, or to both;
//! - [`fuzz`]: cases drawn for as long as one likes, put to two answerers;
//! - [`shrink`]: a case that they differ about, made small.

pub mod areas;
pub mod audit;
pub mod bad_programs;
pub mod bad_volumes;
pub mod bitmap;
pub mod blocks;
pub mod calls;
pub mod counter;
pub mod declared;
pub mod disk;
pub mod driver;
pub mod fuzz;
pub mod kinds;
pub mod loader;
pub mod lookup;
pub mod model;
pub mod names;
pub mod native;
pub mod paths;
pub mod program;
pub mod programs;
pub mod reading;
pub mod rng;
pub mod samples;
pub mod shrink;
pub mod sides;
pub mod sizes;
pub mod talk;
pub mod volumes;
pub mod words;
