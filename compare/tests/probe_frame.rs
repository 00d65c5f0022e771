//! Holds the program `probe` to the frame of its requests, to the two that keep an image: 1 takes one over, 2 changes
//! bytes of it; and to 9, which keeps the number of blocks that calls name.
//!
//! Neither of the two shows the image's bytes. Its length can be told from outside, for it decides which patches fit,
//! see [`holds`]. The number that is named can be told from what calls refuse an image by, see [`names`].

use compare::bad_volumes::NO_SIZES;
use compare::disk::{image_length, FLOPPY, HIGH_DENSITY, SIZES};
use compare::driver::Batch;
use compare::rng::Rng;

const IMAGE: u32 = 1;
const PATCH: u32 = 2;
const AUDIT: u32 = 3;
const FIND: u32 = 4;
const READ: u32 = 5;
const DISK: u32 = 9;

/// Numbers that no request has; whoever gives one of them away takes it off this list.
const UNKNOWN: [u32; 3] = [0, 10, u32::MAX];

/// The longest image that `probe` takes.
const ROOM: usize = 1_802_240;

const PATCHED: &str = "patched";
const BAD: &str = "bad request";

/// The body of a patch: where, then the new bytes.
fn patch(offset: u32, bytes: &[u8]) -> Vec<u8> {
    [&offset.to_be_bytes(), bytes].concat()
}

/// The start of a request whose body is not all there.
fn frame(number: u32, length: u32, body: &[u8]) -> Vec<u8> {
    [&number.to_be_bytes(), &length.to_be_bytes(), body].concat()
}

/// Asks for an image of so many bytes.
fn image(batch: &mut Batch, length: usize) {
    batch.ask(IMAGE, &vec![0xC5; length], &format!("image {length}"));
}

/// Asks what shows that the image held has exactly this length: patches at its end and just past it.
fn holds(batch: &mut Batch, length: u32) {
    batch.ask(PATCH, &patch(length, b""), PATCHED);
    batch.ask(PATCH, &patch(length + 1, b""), BAD);
    batch.ask(PATCH, &patch(length, b"x"), BAD);
    if let Some(last) = length.checked_sub(1) {
        batch.ask(PATCH, &patch(last, b"x"), PATCHED);
        batch.ask(PATCH, &patch(last, b"xy"), BAD);
    }
}

/// Asks for a number of blocks to be named.
fn disk(batch: &mut Batch, named: u32) {
    batch.ask(DISK, &named.to_be_bytes(), &format!("disk {named}"));
}

/// Asks what shows that this number of blocks is named, with an image held that has so many bytes and no good tag. If
/// the number fits, an audit that is lent nothing is refused by 2, a path of bad form by 18 and another one by 3; else
/// all of them are refused by 1.
fn names(batch: &mut Batch, named: u32, length: usize) {
    let fits = SIZES.iter().any(|&blocks| length == image_length(blocks) && [0, blocks].contains(&named));
    let [audit, form, tag] = if fits { [2, 18, 3] } else { [1; 3] };
    batch.ask(AUDIT, &[0; 4], &format!("refused {audit} 0 claim 0"));
    batch.ask(FIND, b"/", &format!("refused {form} 0"));
    batch.ask(FIND, b"a", &format!("refused {tag} 0"));
    batch.ask(READ, &[&[0; 8][..], b"a"].concat(), &format!("refused {tag} 0 out 0"));
}

fn run(batch: Batch) {
    batch.compare("probe");
}

#[test]
fn no_input_no_answer() {
    run(Batch::new());
}

#[test]
fn images_of_every_length_up_to_the_room() {
    let mut batch = Batch::new();
    for length in [0, 1, 512, image_length(FLOPPY), ROOM, 512, 1, 0] {
        image(&mut batch, length);
        holds(&mut batch, length as u32);
    }
    run(batch);
}

#[test]
fn an_image_over_the_room_is_skipped_and_the_old_one_kept() {
    let mut batch = Batch::new();
    batch.ask(IMAGE, &vec![0; ROOM + 1], BAD);
    holds(&mut batch, 0);
    image(&mut batch, 512);
    batch.ask(IMAGE, &vec![0; ROOM + 1], BAD);
    holds(&mut batch, 512);
    batch.ask(IMAGE, &vec![0; 2 * ROOM], BAD);
    holds(&mut batch, 512);
    image(&mut batch, 100);
    holds(&mut batch, 100);
    run(batch);
}

#[test]
fn before_any_image_the_length_is_zero() {
    let mut batch = Batch::new();
    batch.ask(PATCH, &patch(0, b"x"), BAD);
    holds(&mut batch, 0);
    run(batch);
}

#[test]
fn patches_fit_up_to_the_end() {
    let mut batch = Batch::new();
    image(&mut batch, 1000);
    for (offset, length, answer) in [
        (0, 1, PATCHED),
        (0, 999, PATCHED),
        (0, 1000, PATCHED),
        (0, 1001, BAD),
        (1, 999, PATCHED),
        (1, 1000, BAD),
        (500, 500, PATCHED),
        (500, 501, BAD),
        (996, 4, PATCHED),
        (997, 4, BAD),
        (999, 1, PATCHED),
        (1000, 1, BAD),
        (1001, 1, BAD),
        (5000, 1, BAD),
        (0, 100_000, BAD),
    ] {
        batch.ask(PATCH, &patch(offset, &vec![0x5A; length]), answer);
    }
    holds(&mut batch, 1000);
    run(batch);
}

#[test]
fn a_patch_may_be_as_long_as_the_longest_image() {
    let mut batch = Batch::new();
    image(&mut batch, ROOM);
    batch.ask(PATCH, &patch(0, &vec![1; ROOM]), PATCHED);
    batch.ask(PATCH, &patch(1, &vec![2; ROOM]), BAD);
    batch.ask(PATCH, &patch(0, &vec![3; ROOM + 1]), BAD);
    holds(&mut batch, ROOM as u32);
    run(batch);
}

#[test]
fn a_patch_without_bytes_needs_a_place_up_to_the_end() {
    let mut batch = Batch::new();
    image(&mut batch, 10);
    for offset in 0..=10 {
        batch.ask(PATCH, &patch(offset, b""), PATCHED);
    }
    for offset in [11, 12, 256, 0x0A00_0000, u32::MAX] {
        batch.ask(PATCH, &patch(offset, b""), BAD);
    }
    run(batch);
}

#[test]
fn a_patch_without_a_whole_offset_is_bad() {
    let mut batch = Batch::new();
    for length in [0, 10] {
        image(&mut batch, length);
        for short in 0..4 {
            batch.ask(PATCH, &vec![0; short], BAD);
        }
        batch.ask(PATCH, &[0; 4], PATCHED);
    }
    run(batch);
}

#[test]
fn offsets_do_not_wrap() {
    let mut batch = Batch::new();
    for length in [0, 16, ROOM] {
        image(&mut batch, length);
        // with these, offset and length add to 2^32 and a little: to the image's inside, if cut to 32 bits
        for (offset, bytes) in [(u32::MAX, 1), (u32::MAX, 2), (u32::MAX - 3, 4), (u32::MAX - 3, 12)] {
            batch.ask(PATCH, &patch(offset, &vec![0; bytes]), BAD);
        }
        // the same for numbers with a sign, and for sums just below 2^32
        for (offset, bytes) in [(1 << 31, 1), ((1 << 31) - 1, 1), ((1 << 31) - 1, 2), (u32::MAX - 4, 4)] {
            batch.ask(PATCH, &patch(offset, &vec![0; bytes]), BAD);
        }
        holds(&mut batch, length as u32);
    }
    run(batch);
}

#[test]
fn unknown_numbers_are_bad_and_their_bodies_skipped() {
    let mut batch = Batch::new();
    image(&mut batch, 20);
    for number in UNKNOWN {
        for length in [0, 1, 4, 7, 8, 9, 512, 5000] {
            batch.ask(number, &vec![1; length], BAD);
            batch.ask(PATCH, &patch(20, b""), PATCHED);
        }
    }
    // longer than any room
    batch.ask(UNKNOWN[1], &vec![1; 3_000_000], BAD);
    holds(&mut batch, 20);
    run(batch);
}

/// Bodies full of requests: a program that loses its step after a bad one would answer them.
#[test]
fn what_is_skipped_is_not_answered() {
    let mut batch = Batch::new();
    image(&mut batch, 20);
    let requests = frame(IMAGE, 0, b"").repeat(100);
    for number in UNKNOWN {
        batch.ask(number, &requests, BAD);
        holds(&mut batch, 20);
    }
    batch.ask(PATCH, &patch(0, &requests), BAD);
    batch.ask(PATCH, &patch(u32::MAX, &requests), BAD);
    holds(&mut batch, 20);
    let many = frame(IMAGE, 0, b"").repeat(ROOM / 8 + 1);
    batch.ask(IMAGE, &many, BAD);
    batch.ask(PATCH, &patch(0, &many), BAD);
    holds(&mut batch, 20);
    batch.ask(IMAGE, &requests, "image 800");
    holds(&mut batch, 800);
    run(batch);
}

/// Before the first request 9 a floppy is named, and images of that length are the only ones that are not refused by 1.
#[test]
fn a_floppy_is_named_at_first() {
    let mut batch = Batch::new();
    for length in [0, image_length(FLOPPY), image_length(HIGH_DENSITY), 512, image_length(FLOPPY)] {
        image(&mut batch, length);
        names(&mut batch, FLOPPY, length);
    }
    run(batch);
}

/// Any number may be named. It stays through other requests, good and bad ones.
#[test]
fn the_number_named_stays() {
    let mut batch = Batch::new();
    let mut rng = Rng::new(0xD15C);
    for named in [HIGH_DENSITY, 0, FLOPPY, FLOPPY, 0].into_iter().chain(NO_SIZES) {
        disk(&mut batch, named);
        for length in [image_length(FLOPPY), image_length(HIGH_DENSITY)] {
            image(&mut batch, length);
            names(&mut batch, named, length);
            holds(&mut batch, length as u32);
            batch.ask(rng.pick(&UNKNOWN), &rng.bytes(9), BAD);
            batch.ask(IMAGE, &vec![0; ROOM + 1], BAD);
            names(&mut batch, named, length);
        }
    }
    run(batch);
}

/// What is not one number is a bad request, and the number named before stays.
#[test]
fn a_number_of_blocks_is_four_bytes() {
    let mut batch = Batch::new();
    let length = image_length(HIGH_DENSITY);
    image(&mut batch, length);
    for named in [FLOPPY, HIGH_DENSITY, 0] {
        disk(&mut batch, named);
        for other in [0, FLOPPY, HIGH_DENSITY, 1] {
            let four = other.to_be_bytes();
            for cut in 0..4 {
                batch.ask(DISK, &four[..cut], BAD);
                batch.ask(DISK, &four[4 - cut..], BAD);
            }
            for more in [1, 3, 4, 8, 500, 5_000] {
                batch.ask(DISK, &[&four[..], &vec![0; more]].concat(), BAD);
                batch.ask(DISK, &[&vec![0; more], &four[..]].concat(), BAD);
            }
        }
        names(&mut batch, named, length);
    }
    // longer than any room, and full of requests that name another number
    let request = frame(DISK, 4, &FLOPPY.to_be_bytes());
    batch.ask(DISK, &request.repeat(ROOM / request.len() + 1), BAD);
    names(&mut batch, 0, length);
    holds(&mut batch, length as u32);
    run(batch);
}

/// Naming a number leaves the image that is held.
#[test]
fn the_image_stays_while_numbers_are_named() {
    let mut batch = Batch::new();
    for length in [0, 3, 512, image_length(FLOPPY)] {
        image(&mut batch, length);
        for named in [0, FLOPPY, HIGH_DENSITY, u32::MAX] {
            disk(&mut batch, named);
            holds(&mut batch, length as u32);
            names(&mut batch, named, length);
        }
    }
    run(batch);
}

#[test]
fn input_that_ends_inside_number_or_length() {
    for length in 1..8 {
        let mut first = Batch::new();
        first.break_off(&frame(IMAGE, 0, b"")[..length], BAD);
        run(first);

        let mut later = Batch::new();
        image(&mut later, 3);
        later.break_off(&frame(PATCH, 4, b"")[..length], BAD);
        run(later);
    }
}

#[test]
fn input_that_ends_inside_a_body() {
    let whole = patch(0, b"new bytes");
    let broken = [
        frame(IMAGE, 1, b""),
        frame(IMAGE, 512, &[0; 511]),
        frame(IMAGE, ROOM as u32, &[0; 1000]),
        frame(PATCH, 4, b""),
        frame(PATCH, 4, b"\0\0\0"),
        frame(PATCH, 5, &patch(0, b"")),
        frame(PATCH, whole.len() as u32, &whole[..8]),
        // also where the whole request would be a bad one: there is one line for it all the same
        frame(PATCH, 3, b"\0"),
        frame(PATCH, u32::MAX, &whole),
        frame(IMAGE, ROOM as u32 + 1, &[0; 1000]),
        frame(IMAGE, u32::MAX, b""),
        frame(DISK, 4, b""),
        frame(DISK, 4, b"\0\0\x06"),
        frame(DISK, 5, &FLOPPY.to_be_bytes()),
        frame(DISK, u32::MAX, &[0; 5000]),
        frame(UNKNOWN[0], 1, b""),
        frame(UNKNOWN[1], 100, &[0; 99]),
        frame(UNKNOWN[2], u32::MAX, &[0; 5000]),
    ];
    for bytes in broken {
        let mut batch = Batch::new();
        image(&mut batch, 100);
        batch.break_off(&bytes, BAD);
        run(batch);
    }
}

/// What `probe` remembers, as far as these requests show it.
struct Model {
    held: usize,
}

impl Model {
    fn answer(&mut self, number: u32, body: &[u8]) -> String {
        let fits = match (number, body) {
            (IMAGE, _) if body.len() <= ROOM => {
                self.held = body.len();
                return format!("image {}", self.held);
            }
            (DISK, &[a, b, c, d]) => return format!("disk {}", u32::from_be_bytes([a, b, c, d])),
            (PATCH, [a, b, c, d, bytes @ ..]) => {
                let offset = u32::from_be_bytes([*a, *b, *c, *d]);
                u64::from(offset) + bytes.len() as u64 <= self.held as u64
            }
            _ => false,
        };
        if fits { PATCHED } else { BAD }.to_string()
    }
}

/// The offset of a patch of so many bytes: mostly near the image's end, else anywhere in it or far off.
fn random_offset(rng: &mut Rng, held: usize, bytes: usize) -> u32 {
    let touching = (held as u32).wrapping_sub(bytes as u32);
    match rng.below(4) {
        0 | 1 => touching.wrapping_add(rng.below(5) as u32).wrapping_sub(2),
        2 => rng.below(held as u64 + 1) as u32,
        _ => (rng.draw() as u32) >> rng.below(32),
    }
}

fn random_request(rng: &mut Rng, held: usize) -> (u32, Vec<u8>) {
    match rng.below(11) {
        0 => {
            let length = rng.below(600) as usize;
            (IMAGE, rng.bytes(length))
        }
        10 => {
            let length = rng.pick(&[4, 4, 4, 0, 3, 5, 8]);
            (DISK, rng.bytes(length))
        }
        1 => {
            let length = rng.below(4) as usize;
            (PATCH, rng.bytes(length))
        }
        2 => {
            let length = rng.below(40) as usize;
            (rng.pick(&UNKNOWN), rng.bytes(length))
        }
        3 => {
            // far above any number that will be given away
            let number = rng.draw() as u32 | 1 << 31;
            let length = rng.below(40) as usize;
            (number, rng.bytes(length))
        }
        _ => {
            let length = rng.pick(&[0, 1, 2, 3, 4, 31, 300]);
            let bytes = rng.bytes(length);
            (PATCH, patch(random_offset(rng, held, length), &bytes))
        }
    }
}

#[test]
fn a_random_mix() {
    let mut rng = Rng::new(0xD05);
    let mut model = Model { held: 0 };
    let mut batch = Batch::new();
    let mut seen = [0; 3];
    for _ in 0..2_000 {
        let (number, body) = random_request(&mut rng, model.held);
        let answer = model.answer(number, &body);
        seen[match answer.as_str() {
            PATCHED => 0,
            BAD => 1,
            _ => 2,
        }] += 1;
        batch.ask(number, &body, &answer);
    }
    assert!(seen.iter().all(|&times| times > 100), "too few of one answer: {seen:?}");
    run(batch);
}
