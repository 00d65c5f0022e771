//! The archive's calls are declared three times: where they are proved, for C and for Rust. Here the three are held to
//! each other, name by name and type by type; so are the numbers of refusals.
use std::fs::read_to_string;
use std::mem::{offset_of, size_of};

use compare::disk::{claim_length, image_length, ANY, FLOPPY, HIGH_DENSITY};

fn text(name: &str) -> String {
    let path = format!("{}/../{name}", env!("CARGO_MANIFEST_DIR"));
    read_to_string(&path).unwrap_or_else(|e| panic!("{path}: {e}"))
}

/// What stands between the first `open` after `name` and the `close` after that, without comments.
fn inside(text: &str, name: &str, open: char, close: char) -> String {
    let from = text.find(name).unwrap_or_else(|| panic!("there is no {name}"));
    let rest = &text[from + name.len()..];
    let start = rest.find(open).unwrap() + 1;
    let end = rest.find(close).unwrap();
    let lines = rest[start..end].lines().map(|l| l.split("/*").next().unwrap());
    lines.collect::<Vec<_>>().join(" ")
}

/// A type of C by its name in Rust.
fn in_rust(c: &str) -> String {
    let plain = |t: &str| match t {
        "uint8_t" => "u8".to_string(),
        "uint32_t" => "u32".to_string(),
        "size_t" => "usize".to_string(),
        "struct jufferdeeg_hunk" => "Hunk".to_string(),
        other => panic!("{other} is no type that crosses"),
    };
    match (c.strip_suffix('*'), c.strip_prefix("const ")) {
        (Some(to), Some(_)) => format!("*const {}", plain(to.trim().strip_prefix("const ").unwrap())),
        (Some(to), None) => format!("*mut {}", plain(to.trim())),
        _ => plain(c),
    }
}

/// `uint32_t number` and `const uint8_t *image`, as name and type.
fn of_c(one: &str) -> (String, String) {
    let at = one.rfind([' ', '*']).unwrap() + 1;
    (one[at..].to_string(), in_rust(one[..at].trim()))
}

/// `pub number: u32`, as name and type.
fn of_rust(one: &str) -> (String, String) {
    let (name, of) = one.trim().trim_start_matches("pub ").split_once(':').unwrap();
    (name.trim().to_string(), of.trim().to_string())
}

fn parts(inside: &str, by: char, read: fn(&str) -> (String, String)) -> Vec<(String, String)> {
    let parts = inside.split(by).map(str::trim).filter(|p| !p.is_empty());
    parts.map(read).collect()
}

#[test]
fn structs_are_declared_alike() {
    let (c, rust) = (text("include/jufferdeeg.h"), text("include/rust/src/lib.rs"));
    let (volumes, programs) =
        (text("crates/jufferdeeg/src/volumes.rt"), text("crates/jufferdeeg/src/programs.rt"));
    let hunks = text("crates/hunks/src/lib.rt");
    for (in_c, name, source) in [
        ("audit_numbers", "AuditNumbers", &volumes),
        ("find_numbers", "FindNumbers", &volumes),
        ("read_numbers", "ReadNumbers", &volumes),
        ("program_numbers", "ProgramNumbers", &programs),
        ("hunk", "Hunk", &hunks),
    ] {
        let head = format!("pub struct {name} ");
        let before = source.split(&head).next().unwrap();
        let mut attributes = before.lines().rev().take_while(|line| line.starts_with("#["));
        assert!(attributes.any(|line| line == "#[repr(C)]"), "{name}");
        let of_source = inside(source, &head, '{', '}');
        let proved = parts(&of_source, ',', of_rust);
        assert!(proved.len() >= 3, "{name}");
        let for_c = parts(&inside(&c, &format!("struct jufferdeeg_{in_c} {{"), ' ', '}'), ';', of_c);
        assert_eq!(for_c, proved, "{in_c}");
        let for_rust = parts(&inside(&rust, &format!("pub struct {name} "), '{', '}'), ',', of_rust);
        assert_eq!(for_rust, proved, "{name}");
    }
}

/// The parameters where they are proved, a slice as C has it: a pointer and a length.
fn proved(source: &str, call: &str) -> Vec<String> {
    let mut types = Vec::new();
    for (_, of) in parts(&inside(source, &format!("fn {call}"), '(', ')'), ',', of_rust) {
        let (pointer, slice) = match of.strip_prefix("&mut ") {
            Some(slice) => ("*mut", slice),
            None => ("*const", of.strip_prefix('&').unwrap_or("")),
        };
        match slice.strip_prefix('[').and_then(|s| s.strip_suffix(']')) {
            Some(element) => types.extend([format!("{pointer} {element}"), "usize".to_string()]),
            None => types.push(of),
        }
    }
    types
}

/// The type after `->` of a function.
fn answer(source: &str, call: &str) -> String {
    let rest = &source[source.find(&format!("fn {call}(")).unwrap_or_else(|| panic!("there is no {call}"))..];
    let after = rest[rest.find("->").unwrap() + 2..].trim_start();
    after[..after.find(|c: char| !c.is_ascii_alphanumeric()).unwrap()].to_string()
}

#[test]
fn calls_are_declared_alike() {
    let (c, rust) = (text("include/jufferdeeg.h"), text("include/rust/src/lib.rs"));
    let (volumes, programs) =
        (text("crates/jufferdeeg/src/volumes.rt"), text("crates/jufferdeeg/src/programs.rt"));
    let reasons = text("crates/jufferdeeg/src/reasons.rt");
    for (call, in_c, of, source) in [
        ("jufferdeeg_reason", "size_t", "usize", &reasons),
        ("jufferdeeg_audit", "struct jufferdeeg_audit_numbers", "AuditNumbers", &volumes),
        ("jufferdeeg_find", "struct jufferdeeg_find_numbers", "FindNumbers", &volumes),
        ("jufferdeeg_read", "struct jufferdeeg_read_numbers", "ReadNumbers", &volumes),
        ("jufferdeeg_check", "struct jufferdeeg_program_numbers", "ProgramNumbers", &programs),
        ("jufferdeeg_load", "struct jufferdeeg_program_numbers", "ProgramNumbers", &programs),
        ("jufferdeeg_move", "struct jufferdeeg_program_numbers", "ProgramNumbers", &programs),
    ] {
        let for_c = parts(&inside(&c, &format!("{in_c} {call}"), '(', ')'), ',', of_c);
        let for_rust = parts(&inside(&rust, &format!("pub fn {call}"), '(', ')'), ',', of_rust);
        assert_eq!(for_c, for_rust, "{call}");
        let types: Vec<String> = for_c.into_iter().map(|(_, of)| of).collect();
        assert_eq!(types, proved(source, call), "{call}");
        assert_eq!([answer(&rust, call), answer(source, call)], [of, of], "{call}");
    }
}

/// Rust lays its structs out as C does on x86-64 and aarch64: each field at the next multiple of its own size.
#[test]
fn structs_lie_as_in_c() {
    use jufferdeeg::{AuditNumbers, FindNumbers, Hunk, ProgramNumbers, ReadNumbers};
    assert_eq!(size_of::<AuditNumbers>(), 40);
    assert_eq!(offset_of!(AuditNumbers, place), 8);
    assert_eq!(offset_of!(AuditNumbers, directories), 16);
    assert_eq!(offset_of!(AuditNumbers, free), 36);
    assert_eq!(size_of::<FindNumbers>(), 32);
    assert_eq!(offset_of!(FindNumbers, place), 8);
    assert_eq!(offset_of!(FindNumbers, kind), 16);
    assert_eq!(offset_of!(FindNumbers, compared), 28);
    assert_eq!(size_of::<ReadNumbers>(), 24);
    assert_eq!(offset_of!(ReadNumbers, place), 8);
    assert_eq!(offset_of!(ReadNumbers, count), 16);
    assert_eq!(size_of::<ProgramNumbers>(), 32);
    assert_eq!(offset_of!(ProgramNumbers, place), 8);
    assert_eq!(offset_of!(ProgramNumbers, hunks), 16);
    assert_eq!(offset_of!(ProgramNumbers, bytes), 24);
    assert_eq!(size_of::<Hunk>(), 20);
    assert_eq!(offset_of!(Hunk, base), 12);
    assert_eq!(offset_of!(Hunk, memory), 16);
}

/// `pub const NAME: u32 = 7;` or `#define JUFFERDEEG_NAME 7 /* why */`, as name and number.
fn constants(text: &str, before: &str, between: &str) -> Vec<(String, String)> {
    let lines = text.lines().filter_map(|l| l.trim().split("/*").next().unwrap().trim().strip_prefix(before));
    let pairs = lines.filter_map(|l| l.trim_end_matches(';').split_once(between));
    pairs.map(|(name, number)| (name.to_string(), number.to_string())).collect()
}

/// `BlockSum` as `BLOCK_SUM`.
fn in_capitals(name: &str) -> String {
    let breaks = |(i, c): (usize, char)| (i > 0 && c.is_uppercase()).then_some('_').into_iter().chain([c]);
    name.char_indices().flat_map(breaks).collect::<String>().to_uppercase()
}

/// `Fault::BlockSum => 7,` as the name that C has for it, and number.
fn faults(text: &str) -> Vec<(String, String)> {
    let arms = text.lines().filter_map(|l| l.trim().strip_prefix("Fault::")?.strip_suffix(',')?.split_once(" => "));
    arms.map(|(name, number)| (in_capitals(name), number.to_string())).collect()
}

/// What stands from one text to the next other.
fn stretch<'a>(text: &'a str, from: &str, to: &str) -> &'a str {
    let rest = &text[text.find(from).unwrap_or_else(|| panic!("there is no {from}"))..];
    &rest[..rest.find(to).unwrap()]
}

#[test]
fn refusals_have_the_same_numbers() {
    let (c, rust) = (text("include/jufferdeeg.h"), text("include/rust/src/lib.rs"));
    let proved = faults(&text("crates/answers/src/lib.rt"));
    assert_eq!(proved.len(), 34);
    let defined = stretch(&c, "/* The numbers of refusals", "\n\n");
    assert_eq!(constants(defined, "#define JUFFERDEEG_", " "), proved);
    let faults = stretch(&rust, "pub mod fault {", "\n}");
    assert_eq!(constants(faults, "pub const ", ": u32 = "), proved);
}

/// The sizes of disks are those of this package.
#[test]
fn sizes_are_the_same() {
    let sizes = [jufferdeeg::ANY_SIZE, jufferdeeg::DOUBLE_DENSITY, jufferdeeg::HIGH_DENSITY];
    assert_eq!(sizes, [ANY, FLOPPY, HIGH_DENSITY]);
    assert_eq!(jufferdeeg::MOST_IMAGE_BYTES, image_length(HIGH_DENSITY));
    assert_eq!(jufferdeeg::MOST_CLAIM_BYTES, claim_length(HIGH_DENSITY));
}

#[test]
fn lengths_and_versions_are_the_same() {
    let c = constants(&text("include/jufferdeeg.h"), "#define JUFFERDEEG_", " ");
    let of = |name: &str| &c.iter().find(|(one, _)| one == name).unwrap_or_else(|| panic!("{name}")).1[..];
    assert_eq!(of("ANY_SIZE"), format!("{}u", jufferdeeg::ANY_SIZE));
    assert_eq!(of("DOUBLE_DENSITY"), format!("{}u", jufferdeeg::DOUBLE_DENSITY));
    assert_eq!(of("HIGH_DENSITY"), format!("{}u", jufferdeeg::HIGH_DENSITY));
    assert_eq!(of("MOST_IMAGE_BYTES"), jufferdeeg::MOST_IMAGE_BYTES.to_string());
    assert_eq!(of("MOST_CLAIM_BYTES"), jufferdeeg::MOST_CLAIM_BYTES.to_string());
    assert_eq!(of("MOST_HUNKS"), jufferdeeg::MOST_HUNKS.to_string());
    assert_eq!(of("MOST_BYTES"), jufferdeeg::MOST_BYTES.to_string());
    assert_eq!(of("REASON_BYTES"), jufferdeeg::REASON_BYTES.to_string());
    assert_eq!(of("DIRECTORY"), format!("{}u", jufferdeeg::DIRECTORY));
    assert_eq!(of("FILE"), format!("0x{:X}u", jufferdeeg::FILE));
    assert_eq!(of("ANY_MEMORY"), format!("{}u", jufferdeeg::ANY_MEMORY));
    assert_eq!(of("CHIP_MEMORY"), format!("{}u", jufferdeeg::CHIP_MEMORY));
    assert_eq!(of("FAST_MEMORY"), format!("{}u", jufferdeeg::FAST_MEMORY));
    let version = of("VERSION");
    let parts = [of("VERSION_MAJOR"), of("VERSION_MINOR"), of("VERSION_PATCH")];
    assert_eq!(version, format!("\"{}\"", parts.join(".")));
    assert!(text("include/rust/Cargo.toml").contains(&format!("\nversion = {version}\n")));
    let newest = format!("\n## {}\n", version.trim_matches('"'));
    assert!(text("CHANGELOG.md").contains(&newest));
}
