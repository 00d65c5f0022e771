//! The files of the folder `samples`: a volume with a title program on it, the same volume damaged, a volume of the
//! international kind, one in the Fast File System, one on a high-density disk, and the program alone.
//!
//! They are made by the generators of this package, and the same in every run.

use std::collections::BTreeMap;

use crate::disk::{Disk, HIGH_DENSITY};
use crate::names::put_name;
use crate::program::Memory;
use crate::programs::{file, Block, Body, Hunk, Program};
use crate::rng::Rng;
use crate::volumes::{Filling, Kind, Met, Order, Part, Plan, Style, Volume};
use crate::words::{mend, put, BLOCK_BYTES};

/// The path of the title program on the volume.
pub const TITLE: &str = "c/title";
/// The path of the settings.
pub const SETTINGS: &str = "s/settings";
/// The path of a file that is long enough for a list block.
pub const FONT: &str = "fonts/lower-third";
/// The path of such a file on the volume in the Fast File System, whose blocks hold more.
pub const LOGO: &str = "logos/station";
/// The path of a file on the high-density disk that no floppy has room for.
pub const PICTURE: &str = "pictures/black";
/// Paths on the international volume.
pub const SUMMER: &str = "Météo/Été";
pub const WINTER: &str = "Météo/Hiver";
pub const OPTIONS: &str = "s/réglages";

/// The bytes of the settings.
const SETTINGS_TEXT: &[u8] = b"; title board 3, evening shift
station   Channel 4
line1     ON AIR 20:00
font      lower-third
colour    white on blue
fade      12 frames
";

/// The settings on the volume in the Fast File System.
const LATE_TEXT: &[u8] = b"; title board 5, late shift
station   Channel 4
line1     CLOSE DOWN 00:30
logo      station
colour    grey on black
fade      25 frames
";

/// The settings on the high-density disk.
const WIDE_TEXT: &[u8] = b"; title board 7, opening night
station   Channel 4
line1     LIVE FROM THE HALL
picture   black
colour    gold on black
fade      50 frames
";

/// The texts of the international volume.
const SUMMER_TEXT: &str = "; bande météo, édition d'été
ligne1    Île-d'Orléans: 24 à 27 degrés
ligne2    Rivière-à-Pierre: 19 à 22 degrés
";
const WINTER_TEXT: &str = "; bande météo, édition d'hiver
ligne1    Île-d'Orléans: -9 à -4 degrés
ligne2    Rivière-à-Pierre: -14 à -11 degrés
";
const OPTIONS_TEXT: &str = "; régie 2, équipe du soir
chaîne    Télé Côte-Nord
police    petites capitales
fondu     12 images
";

/// A text in Latin-1, a byte for each letter.
pub fn latin_1(text: &str) -> Vec<u8> {
    text.chars().map(|letter| u8::try_from(letter).expect("a letter of Latin-1")).collect()
}

/// The byte that a drive writes into a sector which it formats anew.
const FORMATTED: u8 = 0xF6;

/// The words of a text, filled up with zeros.
fn text_words(text: &[u8]) -> Vec<u32> {
    let four = |chunk: &[u8]| (0..4).fold(0, |high, at| high << 8 | u32::from(*chunk.get(at).unwrap_or(&0)));
    text.chunks(4).map(four).collect()
}

/// Words out of halves, as instructions are made of them.
fn words(halves: &[u16]) -> Vec<u32> {
    halves.chunks(2).map(|two| u32::from(two[0]) << 16 | u32::from(two[1])).collect()
}

/// Copies the line of the data hunk into the frame of the bss hunk and says that it is there. Of the four addresses
/// in it, those at 2 and at 34 lie over two words.
fn code() -> Hunk {
    let start = [
        [0x41F9, 0, 0],           // 00 lea line,a0
        [0x43F9, 0, 0],           // 06 lea frame,a1
        [0x303C, 23, 0x12D8],     // 0C move.w #23,d0; 10 move.b (a0)+,(a1)+
        [0x51C8, 0xFFFC, 0x4EB9], // 12 dbra d0,10; 16 jsr show
        [0, 0x001E, 0x4E75],      // 1C rts
    ];
    let show = [0x33FC, 1, 0, 0x0018, 0x4E75]; // 1E move.w #1,shown; 26 rts
    let symbols = vec![(text_words(b"start"), 0), (text_words(b"show"), 0x1E)];
    Hunk {
        size: 10,
        memory: Memory::Any,
        name: Some(text_words(b"title")),
        body: Body::Code(words(&[&start.concat()[..], &show].concat())),
        blocks: vec![
            Block::Relocations(vec![(1, vec![2]), (2, vec![8, 34]), (0, vec![24])]),
            Block::Symbols(symbols),
            Block::Debug(text_words(b"LINEtitle.asm")),
        ],
    }
}

/// The line; after it the addresses of the line and of the routine that shows it, both over two words. Three words
/// of the hunk are not stored.
fn data() -> Hunk {
    let line = text_words(b"ON AIR 20:00   CHANNEL 4");
    let addresses = words(&[24, 0, 0, 0, 0x001E, 0]);
    Hunk {
        size: 12,
        memory: Memory::Any,
        name: None,
        body: Body::Data([line, addresses].concat()),
        blocks: vec![Block::Relocations(vec![(1, vec![26]), (0, vec![30])])],
    }
}

/// The frame, and whether it is shown.
fn bss() -> Hunk {
    Hunk { size: 7, memory: Memory::Any, name: None, body: Body::Bss(7), blocks: Vec::new() }
}

/// The title program: a code, a data and a bss hunk.
pub fn title() -> Vec<u8> {
    file(&Program { hunks: vec![code(), data(), bss()] }.written())
}

/// The letters of a font: lines of pixels that nobody has to look at.
fn font() -> Vec<u8> {
    Rng::new(4).bytes(36_000)
}

/// The bits of a logo, which nobody has to look at either.
fn logo() -> Vec<u8> {
    Rng::new(5).bytes(40_000)
}

/// The points of a black picture, 640 by 512 of them with three bytes each.
fn picture() -> Vec<u8> {
    vec![0; 640 * 512 * 3]
}

/// What a volume is to be.
struct Sample {
    disk: Disk,
    /// Its name.
    name: &'static str,
    /// Its files by their paths, and what is in them.
    files: Vec<(&'static str, Vec<u8>)>,
    /// A directory with nothing in it.
    bare: &'static str,
}

/// The volume of a titling board.
fn of_board() -> Sample {
    let files = vec![(TITLE, title()), (SETTINGS, SETTINGS_TEXT.to_vec()), (FONT, font())];
    Sample { disk: Disk::OLD, name: "Titles", files, bare: "t" }
}

/// The volume of a broadcaster: the same title program, and names with accents.
fn of_broadcaster() -> Sample {
    let texts = [(SUMMER, SUMMER_TEXT), (WINTER, WINTER_TEXT), (OPTIONS, OPTIONS_TEXT)];
    let files = [(TITLE, title())].into_iter().chain(texts.map(|(path, text)| (path, latin_1(text)))).collect();
    Sample { disk: Disk::OLD_INTERNATIONAL, name: "Télé Côte-Nord", files, bare: "Générique" }
}

/// The volume of a board with the Fast File System: the same title program, other settings, and a logo.
fn of_fast_board() -> Sample {
    let files = vec![(TITLE, title()), (SETTINGS, LATE_TEXT.to_vec()), (LOGO, logo())];
    Sample { disk: Disk::FAST, name: "Late Titles", files, bare: "t" }
}

/// The volume of a board with a high-density drive: the same title program, other settings, and a picture.
fn of_large_board() -> Sample {
    let files = vec![(TITLE, title()), (SETTINGS, WIDE_TEXT.to_vec()), (PICTURE, picture())];
    Sample { disk: Disk::FAST.with_blocks(HIGH_DENSITY), name: "Opening Night", files, bare: "t" }
}

impl Sample {
    /// The entries of the volume: each file after its directory, and the directory with nothing in it.
    fn plan(&self) -> Plan {
        let (mut plan, mut directories) = (Plan::new(&self.disk), BTreeMap::new());
        for (path, bytes) in &self.files {
            let (directory, name) = path.split_once('/').expect("a file in a directory");
            let new = || plan.add_named(None, &latin_1(directory), Kind::Directory);
            let within = *directories.entry(directory).or_insert_with(new);
            plan.add_named(Some(within), &latin_1(name), Kind::File(bytes.len() as u32));
        }
        plan.add_named(None, &latin_1(self.bare), Kind::Directory);
        plan
    }

    /// What is in the file of which this is a name.
    fn contents_of(&self, name: &[u8]) -> &[u8] {
        let is_wanted = |path: &str| path.split('/').next_back().map(latin_1).as_deref() == Some(name);
        let wanted = self.files.iter().find(|(path, _)| is_wanted(path));
        &wanted.expect("a file of the volume").1
    }

    /// The block of a volume as a disk has it: nothing where no rule asks, but the first data key in w4 of a header, by
    /// which others read; the bytes of the file in a data block, and the sum in its usual place.
    fn finished(&self, volume: &Volume, Met { key, part }: Met) -> Vec<u8> {
        let mut block = volume.block(key).to_vec();
        volume.spare(part).iter().for_each(|&index| put(&mut block, index, 0));
        match part {
            Part::Root => {
                block[432..464].fill(0);
                put_name(&mut block, &latin_1(self.name));
            }
            Part::File(number) => put(&mut block, 4, volume.entries[number].data.first().copied().unwrap_or(0)),
            Part::Data(number, index) => {
                let contents = self.contents_of(&volume.entries[number].name);
                let bytes = contents.chunks(self.disk.data_bytes() as usize).nth(index).expect("a block's bytes");
                block[self.disk.data_start()..][..bytes.len()].copy_from_slice(bytes);
            }
            _ => {}
        }
        if volume.is_summed(part) {
            mend(&mut block, if part == Part::Bitmap { 0 } else { 5 });
        }
        block
    }

    /// The volume, with an image as a disk has it.
    fn volume(&self) -> Volume {
        let style = Style { filling: Filling::Zeros, order: Order::Rising };
        let mut volume = Volume::new(&mut Rng::new(880), &self.plan(), style);
        for met in volume.order.clone() {
            let block = self.finished(&volume, met);
            volume.image[met.key as usize * BLOCK_BYTES..][..BLOCK_BYTES].copy_from_slice(&block);
        }
        volume
    }
}

/// The image of the board's volume.
pub fn titles() -> Vec<u8> {
    of_board().volume().image
}

/// The same, but the block with the title program was formatted anew.
pub fn damaged() -> Vec<u8> {
    let volume = of_board().volume();
    let title = volume.entries.iter().find(|entry| entry.name == b"title").expect("the title program");
    let mut image = volume.image.clone();
    image[title.data[0] as usize * BLOCK_BYTES..][..BLOCK_BYTES].fill(FORMATTED);
    image
}

/// The image of the broadcaster's volume.
pub fn international() -> Vec<u8> {
    of_broadcaster().volume().image
}

/// The image of the volume in the Fast File System.
pub fn fast() -> Vec<u8> {
    of_fast_board().volume().image
}

/// The image of the volume on a high-density disk.
pub fn high_density() -> Vec<u8> {
    of_large_board().volume().image
}

/// All files by their names.
pub fn all() -> [(&'static str, Vec<u8>); 6] {
    [
        ("titles.adf", titles()),
        ("damaged.adf", damaged()),
        ("international.adf", international()),
        ("fast.adf", fast()),
        ("high-density.adf", high_density()),
        ("title", title()),
    ]
}

#[cfg(test)]
mod tests {
    use super::*;
    use crate::declared::agreed;
    use crate::disk::{ANY, FLOPPY};
    use crate::program::{read as read_program, Kind as HunkKind, Refusal};
    use crate::reading::read;
    use crate::volumes::Entry;
    use crate::words::word;
    use std::path::Path;

    fn bytes_of(image: &[u8], path: &str) -> Result<Vec<u8>, Refusal> {
        let mut output = vec![0; 1_000_000];
        let count = read(ANY, image, &latin_1(path), 0, &mut output)?;
        output.truncate(count);
        Ok(output)
    }

    /// What is committed is what is made here.
    #[test]
    fn the_folder_holds_exactly_these_files() {
        let folder = Path::new(env!("CARGO_MANIFEST_DIR")).parent().expect("a repository").join("samples");
        for (name, bytes) in all() {
            let found = std::fs::read(folder.join(name)).expect("a sample");
            assert!(found == bytes, "{name} is not what make_samples makes");
        }
        let entries = std::fs::read_dir(&folder).expect("the folder of samples");
        let mut names: Vec<_> = entries.map(|entry| entry.expect("a file").file_name()).collect();
        names.sort();
        let images = ["damaged.adf", "fast.adf", "high-density.adf", "international.adf"];
        assert_eq!(names, [&["README.md"][..], &images, &["title", "titles.adf"]].concat());
    }

    #[test]
    fn the_title_program_has_what_programs_have() {
        let hunks = read_program(&title()).expect("a good program");
        let kinds: Vec<_> = hunks.iter().map(|hunk| hunk.kind).collect();
        assert_eq!(kinds, [HunkKind::Code, HunkKind::Data, HunkKind::Bss]);
        let targets: Vec<_> = hunks.iter().flat_map(|hunk| &hunk.targets).collect();
        let straddling = targets.iter().filter(|target| target.offset % 4 == 2).count();
        assert_eq!((targets.len(), straddling), (6, 4));
        assert!(hunks[1].stored.len() < hunks[1].size);
    }

    #[test]
    fn the_volumes_are_good_and_their_files_are_there() {
        let samples = [
            (of_board(), [4, 3, 1, 76]),
            (of_broadcaster(), [4, 4, 0, 4]),
            (of_fast_board(), [4, 3, 1, 81]),
            (of_large_board(), [4, 3, 26, 1_922]),
        ];
        for (sample, counts) in samples {
            let image = sample.volume().image;
            let report = agreed(sample.disk.blocks, &image, &mut [0; 3_520]).expect("a good volume");
            let found = [report.directories, report.files, report.list_blocks, report.data_blocks];
            assert_eq!(found, counts);
            for (path, bytes) in sample.files {
                assert!(bytes_of(&image, path) == Ok(bytes), "{path}");
            }
        }
    }

    /// The bytes that docs/FORMAT.md speaks of ("Blocks of a volume", Folding), and paths in the other case.
    #[test]
    fn the_international_volume_has_accents() {
        let mut image = international();
        assert_eq!(image[..4], *b"DOS\x02");
        assert_eq!(latin_1(SUMMER), b"M\xE9t\xE9o/\xC9t\xE9");
        for path in ["MÉTÉO/ÉTÉ", "météo/été", "Météo/éTÉ"] {
            assert_eq!(bytes_of(&image, path), Ok(latin_1(SUMMER_TEXT)), "{path}");
        }
        assert_eq!(bytes_of(&image, "S/RÉGLAGES"), Ok(latin_1(OPTIONS_TEXT)));
        assert_eq!(bytes_of(&image, "METEO/ETE"), Err(Refusal::at(19, 0)));
        // on a plain disk most of it would hang wrongly
        image[3] = 0;
        assert_eq!(agreed(FLOPPY, &image, &mut [0; 1_760]).map_err(|refusal| refusal.number), Err(12));
    }

    /// A file's bytes begin where its blocks do, and nothing else is in them. An old disk asks for more blocks.
    #[test]
    fn the_fast_volume_has_plain_data_blocks() {
        let volume = of_fast_board().volume();
        let mut image = fast();
        assert_eq!(image[..4], *b"DOS\x01");
        let file = |name: &[u8]| volume.entries.iter().find(|entry| entry.name == name).expect("a file");
        let block = |key: u32| &image[key as usize * BLOCK_BYTES..][..BLOCK_BYTES];
        assert_eq!(block(file(b"title").data[0])[..300], title());
        assert_eq!(block(file(b"title").data[0])[300..], [0; 212]);
        let (logo, bytes) = (file(b"station"), logo());
        assert_eq!((logo.data.len(), logo.lists.len()), (79, 1));
        for (&key, part) in logo.data.iter().zip(bytes.chunks(512)) {
            assert_eq!(block(key)[..part.len()], *part);
        }
        // nothing is asked of w4, and the first data key stands there, as on a real disk; a directory has none
        let first = |entry: &Entry| entry.data.first().copied().unwrap_or(0);
        assert!(volume.entries.iter().all(|entry| word(block(entry.key), 4) == first(entry)));
        image[3] = 0;
        assert_eq!(agreed(FLOPPY, &image, &mut [0; 1_760]).map_err(|refusal| refusal.number), Err(7));
    }

    /// It is refused where a floppy is named, and its picture fits no floppy. Most of its bytes are 0.
    #[test]
    fn the_high_density_volume_is_no_floppy() {
        let image = high_density();
        assert_eq!(image.len(), 1_802_240);
        let answer = |named: u32| agreed(named, &image, &mut [0; 3_520]).map(|report| (report.used, report.free));
        let accepted = Ok((1_957, 1_561));
        assert_eq!([0, 3_520, 1_760].map(answer), [accepted, accepted, Err(Refusal::at(1, 0))]);
        assert!(picture().len() > Disk::FAST.file_limit() as usize);
        assert!(image.iter().filter(|&&byte| byte != 0).count() < 10_000);
        // headers name their first data block, as on a real disk
        let volume = of_large_board().volume();
        let first = |entry: &Entry| entry.data.first().copied().unwrap_or(0);
        assert!(volume.entries.iter().all(|entry| word(volume.block(entry.key), 4) == first(entry)));
    }

    /// One block is overwritten, and nothing but its file is lost.
    #[test]
    fn the_damage_is_found_and_bounded() {
        let image = damaged();
        let refusal = agreed(FLOPPY, &image, &mut [0; 1_760]).expect_err("a damaged volume");
        assert_eq!(refusal.number, 7);
        assert_eq!(bytes_of(&image, TITLE), Err(refusal));
        for (path, bytes) in of_board().files.into_iter().skip(1) {
            assert!(bytes_of(&image, path) == Ok(bytes), "{path}");
        }
    }
}
