//! Runs a Rattle program on many requests and holds every line it answers to the line expected.
//!
//! A request of the instrument `probe` is a number, the length of a body and the body; numbers have four bytes,
//! the highest first. Each request is answered by one line. Requests go to a temporary file that becomes the
//! program's standard input: unlike a pipe it cannot jam while the answers are not read yet.

use std::fs::{self, File};
use std::io::{BufWriter, Write};
use std::path::{Path, PathBuf};
use std::process::{Command, Stdio};
use std::sync::atomic::{AtomicU32, Ordering};

/// The checksum by which the instrument shows the contents of an area.
pub fn checksum(bytes: &[u8]) -> u32 {
    let h = bytes.iter().fold(0, |h: u64, &byte| (257 * h + u64::from(byte) + 1) % 4_294_967_291);
    h as u32
}

/// The command that runs the repository's program NAME, which `rt` leaves in `crates/NAME/out`. It is for x86-64 and
/// takes the loader and the C library of the machine.
pub fn rattle(name: &str) -> Command {
    let repository = Path::new(env!("CARGO_MANIFEST_DIR")).parent();
    let crates = repository.expect("this package lies in a repository").join("crates");
    let program = crates.join(name).join("out").join(name);
    assert!(program.is_file(), "{} is not there; `rt ci` builds it", program.display());
    Command::new(program)
}

/// A request: its number and its body.
pub type Request = (u32, Vec<u8>);

/// A request as a program reads it.
pub fn framed(number: u32, body: &[u8]) -> Vec<u8> {
    let length = u32::try_from(body.len()).expect("a body's length");
    [&number.to_be_bytes(), &length.to_be_bytes(), body].concat()
}

/// What a program answers to these requests, line by line. A bad end is told in one line more.
pub fn answers(mut command: Command, requests: &[Request]) -> Vec<String> {
    let place = Temporary::new();
    let input: Vec<u8> = requests.iter().flat_map(|(number, body)| framed(*number, body)).collect();
    fs::write(&place.0, input).expect("room for the requests");
    let input = File::open(&place.0).expect("the requests written before");
    let run = command.stdin(Stdio::from(input)).output().expect("a program that starts");
    let text = String::from_utf8_lossy(&run.stdout);
    let without = |line: &str| format!("{line} without an end of line");
    let line = |line: &str| line.strip_suffix('\n').map_or_else(|| without(line), str::to_string);
    let bad_end = (!run.status.success()).then(|| format!("ended with {}", run.status));
    text.split_inclusive('\n').map(line).chain(bad_end).collect()
}

/// A file that goes when this value does, also while a failed test unwinds.
struct Temporary(PathBuf);

impl Temporary {
    fn new() -> Temporary {
        static MADE: AtomicU32 = AtomicU32::new(0);
        let (process, count) = (std::process::id(), MADE.fetch_add(1, Ordering::Relaxed));
        Temporary(std::env::temp_dir().join(format!("compare-{process}-{count}")))
    }
}

impl Drop for Temporary {
    fn drop(&mut self) {
        // nothing can be done about a file that will not go, least of all while unwinding
        let _ = fs::remove_file(&self.0);
    }
}

/// What was asked, in words, and the line due for it.
struct Asked {
    what: String,
    answer: String,
}

/// Requests for one run of a program, and the answers due.
pub struct Batch {
    input: BufWriter<File>,
    asked: Vec<Asked>,
    place: Temporary,
}

impl Batch {
    /// A batch without requests.
    pub fn new() -> Batch {
        let place = Temporary::new();
        let file = File::create(&place.0).expect("a temporary file");
        Batch { input: BufWriter::new(file), asked: Vec::new(), place }
    }

    /// Adds a request and the line that it is to be answered with.
    pub fn ask(&mut self, number: u32, body: &[u8], answer: &str) {
        self.write(&framed(number, body));
        self.expect(format!("number {number}"), answer);
    }

    /// The same; what the request is about is told where it is not answered as it should be.
    pub fn ask_about(&mut self, about: &str, number: u32, body: &[u8], answer: &str) {
        self.ask(number, body, answer);
        if let Some(asked) = self.asked.last_mut() {
            asked.what = format!("number {number}, {about}");
        }
    }

    /// Ends the input with bytes that are no whole request, and the line that they are to be answered with.
    pub fn break_off(&mut self, bytes: &[u8], answer: &str) {
        self.feed("broken off", bytes, &[answer]);
    }

    /// Adds bytes as they are, for a program without requests, and the lines that they are to be answered with.
    pub fn feed(&mut self, about: &str, bytes: &[u8], answers: &[impl AsRef<str>]) {
        self.write(bytes);
        for answer in answers {
            self.expect(about.to_string(), answer.as_ref());
        }
    }

    /// Runs the Rattle program on the requests; panics where an answer is not the one due.
    pub fn compare(self, program: &str) {
        self.compare_with(rattle(program));
    }

    /// The same for any command.
    pub fn compare_with(mut self, mut command: Command) {
        self.input.flush().expect("room for the requests");
        let input = File::open(&self.place.0).expect("the requests written before");
        let run = command.stdin(Stdio::from(input)).output().expect("a program that starts");
        if let Err(difference) = judge(&self.asked, &run.stdout) {
            let said = String::from_utf8_lossy(&run.stderr);
            panic!("{difference}\nthe program ended with {}\n{said}", run.status);
        }
        assert!(run.status.success(), "right answers, but {}", run.status);
    }

    fn write(&mut self, bytes: &[u8]) {
        self.input.write_all(bytes).expect("room for the requests");
    }

    fn expect(&mut self, what: String, answer: &str) {
        let answer = answer.to_string();
        self.asked.push(Asked { what, answer });
    }
}

impl Default for Batch {
    fn default() -> Batch {
        Batch::new()
    }
}

/// Holds a program's output to the answers due: as many lines, each the right one and each ended.
fn judge(asked: &[Asked], output: &[u8]) -> Result<(), String> {
    let text = String::from_utf8_lossy(output);
    let mut lines = text.split_inclusive('\n');
    for (index, Asked { what, answer }) in asked.iter().enumerate() {
        let got = match lines.next().map(|line| (line, line.strip_suffix('\n'))) {
            Some((_, Some(line))) if line == answer => continue,
            Some((_, Some(line))) => format!("{line:?}"),
            Some((line, None)) => format!("{line:?} without an end of line"),
            None => "no answer".to_string(),
        };
        return Err(format!("request {index} ({what}): expected {answer:?}, got {got}"));
    }
    match lines.next() {
        None => Ok(()),
        Some(more) => Err(format!("after the last answer: {more:?}")),
    }
}

#[cfg(test)]
mod tests {
    use super::*;
    use std::panic::{catch_unwind, AssertUnwindSafe};

    #[test]
    fn checksums_of_short_areas() {
        assert_eq!(checksum(&[]), 0);
        assert_eq!(checksum(&[0]), 1);
        assert_eq!(checksum(&[0, 0]), 258);
        assert_eq!(checksum(&[0xAA]), 171);
        assert_eq!(checksum(&[0xAA, 0x55]), 171 * 257 + 86);
        // 257^4 - 1 = 4,362,470,400 is cut once
        assert_eq!(checksum(&[0xFF; 4]), 67_503_109);
    }

    fn asked(answers: &[&str]) -> Vec<Asked> {
        let ask = |(number, answer): (usize, &&str)| Asked {
            what: format!("number {}", number + 1),
            answer: answer.to_string(),
        };
        answers.iter().enumerate().map(ask).collect()
    }

    #[test]
    fn right_answers_are_accepted() {
        assert_eq!(judge(&asked(&[]), b""), Ok(()));
        assert_eq!(judge(&asked(&["a", "", "b"]), b"a\n\nb\n"), Ok(()));
    }

    #[test]
    fn a_difference_says_where_and_what() {
        for (output, message) in [
            (&b"a\nc\n"[..], r#"request 1 (number 2): expected "b", got "c""#),
            (b"a\n", r#"request 1 (number 2): expected "b", got no answer"#),
            (b"a\nb", r#"request 1 (number 2): expected "b", got "b" without an end of line"#),
            (b"", r#"request 0 (number 1): expected "a", got no answer"#),
            (b"b\na\n", r#"request 0 (number 1): expected "a", got "b""#),
            (b"a\r\nb\n", r#"request 0 (number 1): expected "a", got "a\r""#),
            (b"a\nb\nc\n", r#"after the last answer: "c\n""#),
            (b"a\nb\nc", r#"after the last answer: "c""#),
            (b"a\nb\n\n", r#"after the last answer: "\n""#),
        ] {
            assert_eq!(
                judge(&asked(&["a", "b"]), output),
                Err(message.to_string()),
                "{}",
                String::from_utf8_lossy(output)
            );
        }
    }

    /// `od` shows the frame: number, length, body.
    #[test]
    fn a_request_is_framed_by_its_number_and_length() {
        let mut batch = Batch::new();
        batch.ask(0x0102_0304, b"\xFE\xFF", " 01 02 03 04 00 00 00 02 fe ff");
        let mut od = Command::new("od");
        od.args(["-An", "-v", "-t", "x1"]);
        batch.compare_with(od);
    }

    #[test]
    fn answers_are_lines_and_a_bad_end_is_one() {
        let requests = [(0x6F6E_650A, b"two\r\nlast".to_vec())];
        let lines = ["one", "\0\0\0\ttwo\r", "last without an end of line"];
        assert_eq!(answers(Command::new("cat"), &requests), lines);
        assert_eq!(answers(Command::new("true"), &requests), [""; 0]);
        let ended = answers(Command::new("false"), &[]);
        assert!(ended.len() == 1 && ended[0].starts_with("ended with "), "{ended:?}");
    }

    /// `cat` answers with its input, which is the whole temporary file.
    #[test]
    fn the_requests_are_the_programs_input() {
        let mut batch = Batch::new();
        batch.break_off(b"one\n", "one");
        batch.break_off(b"two\n", "two");
        batch.compare_with(Command::new("cat"));
    }

    #[test]
    fn a_failed_comparison_panics_and_leaves_no_file() {
        let mut batch = Batch::new();
        batch.break_off(b"one\n", "two");
        let place = batch.place.0.clone();
        assert!(place.exists());
        let run = AssertUnwindSafe(|| batch.compare_with(Command::new("cat")));
        let panic = catch_unwind(run).expect_err("a wrong answer");
        let message = panic.downcast_ref::<String>().expect("a message");
        let due = r#"request 0 (broken off): expected "two", got "one""#;
        assert!(message.starts_with(due), "{message}");
        assert!(!place.exists());
    }

    #[test]
    fn a_failed_comparison_tells_what_was_asked() {
        let mut batch = Batch::new();
        batch.ask_about("a question", 7, b"", "yes");
        let run = AssertUnwindSafe(|| batch.compare_with(Command::new("true")));
        let panic = catch_unwind(run).expect_err("no answer");
        let message = panic.downcast_ref::<String>().expect("a message");
        let due = r#"request 0 (number 7, a question): expected "yes", got no answer"#;
        assert!(message.starts_with(due), "{message}");
    }

    #[test]
    fn a_program_that_fails_after_right_answers_is_not_trusted() {
        let run = || Batch::new().compare_with(Command::new("false"));
        assert!(catch_unwind(run).is_err());
    }
}
