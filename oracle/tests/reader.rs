//! Document 02's request a over the stored lists: what the port wrote is read as what was asked, and
//! what the Rust wrote as whatever Arm makes of it. The lines of docs/DIFFERENCES.md about the
//! latter are made here, from what the Rust does.

use std::collections::{BTreeMap, BTreeSet};
use std::fs;
use std::path::Path;

use oracle::document::displacements::{FORMATS, distance};
use oracle::document::logical::encode_logical_imm;
use oracle::document::reader::{Item, Logical, items, read_at, rewrite};
use oracle::replay::answer::{Answer, Said};
use oracle::replay::by_rust::{self, Heard};
use oracle::replay::classes::Class::{self, *};
use oracle::replay::departures::from_four;
use oracle::replay::request::{Request, entry::*};
use oracle::replay::{Settled, by_document, settle};

/// The stored requests that the entries which write moves, logical words and displacements are
/// asked, with their stored answers.
fn stored(pair: &str) -> Vec<(Request, Answer)> {
    let folder = Path::new(env!("CARGO_MANIFEST_DIR")).join("../crates").join(pair);
    let asked = fs::read(folder.join("stdin")).unwrap();
    let number = |eight: &[u8]| u64::from_le_bytes(eight.try_into().unwrap());
    let numbers: Vec<u64> = asked.chunks(8).map(number).collect();
    let requests = numbers.chunks(Request::BYTES / 8).map(|r| Request::new(r[0], &r[1..]));
    let all: Vec<_> = requests.map(|r| (r, by_document::answer(&r))).collect();
    let text: String = all.iter().map(|(_, answer)| answer.text()).collect();
    assert_eq!(text, fs::read_to_string(folder.join("stdout")).unwrap());
    let writes = [MOVE, PATCHABLE_MOVE, LOGICAL_WORD, DISP_IMM, DISP_TARGET];
    all.into_iter().filter(|(r, _)| writes.contains(&r.entry)).collect()
}

/// The words that an answer has written, if it has accepted the request.
fn written<'a>(r: &Request, answer: &'a Answer) -> Option<&'a [u32]> {
    match &answer.said {
        Said::Numbers(numbers) => {
            Some(&answer.run[r.place().position as usize..numbers[0] as usize])
        }
        _ => None,
    }
}

/// The words that the Rust writes, if it writes any.
fn of_the_rust(r: &Request) -> Option<Vec<u32>> {
    match by_rust::heard(r) {
        Heard::Says(answer) => written(r, &answer).map(<[u32]>::to_vec),
        _ => None,
    }
}

/// What a request asks for, as it must be read from the words of its answer. The size of a move is
/// the first word's.
fn asked(r: &Request, words: &[u32]) -> Item {
    let [a, b, c, d, e] = [0, 1, 2, 3, 4].map(|i| r.low(i));
    let displacement = |distance| Item::Displacement { format: a, base: b, distance };
    let low = |value: u64, size: u32| if size == 32 { value % (1 << 32) } else { value };
    let count = words.len() as u64;
    match r.entry {
        MOVE => {
            let size = 32 << (words[0] >> 31);
            Item::Constant { register: b, size, value: r.args[0], words: count }
        }
        PATCHABLE_MOVE => {
            Item::Constant { register: c, size: b, value: low(r.args[0], b), words: count }
        }
        LOGICAL_WORD => {
            let [n, s, turn, length] = encode_logical_imm(r.args[1], c).unwrap();
            let value = low(r.args[1], c);
            Item::Logical(Logical {
                operation: a,
                width: c,
                rn: d,
                rd: e,
                value,
                n,
                s,
                r: turn,
                length,
                normal: true,
            })
        }
        DISP_IMM => displacement(r.args[2] as i64),
        _ => displacement(distance(a, r.args[2], r.place().address())),
    }
}

/// Each stored answer of the port that has written words: they are one item, that which was asked.
/// What stands behind them in the run is no MOVK.
#[test]
fn the_stored_words_are_read_as_what_was_asked() {
    let mut met = BTreeSet::new();
    for (r, answer) in stored("replay").into_iter().chain(stored("differences")) {
        if let Some(words) = written(&r, &answer) {
            let at = r.place().position;
            let next = at + words.len() as u64;
            let found = read_at(&answer.run, at);
            assert_eq!(found, Ok(Some((asked(&r, words), next))), "{r}: {words:08x?}");
            words.iter().for_each(|word| assert_eq!(rewrite(*word), *word));
            met.insert(r.entry);
        }
    }
    assert_eq!(met, [LOGICAL_WORD, MOVE, PATCHABLE_MOVE, DISP_IMM, DISP_TARGET].into());
}

/// The stored requests at which the Rust is not the port and writes words, each with its class and
/// these words, of which there may be none.
fn old_words() -> Vec<(Class, Request, Vec<u32>)> {
    let mut all = vec![];
    for (r, _) in stored("differences") {
        if let (Ok(Settled::Differs(class, _)), Some(words)) = (settle(&r), of_the_rust(&r)) {
            all.push((class, r, words));
        }
    }
    all
}

fn read(words: &[u32]) -> Vec<Item> {
    items(words).into_iter().map(|(_, item)| item).collect()
}

fn unknown(item: &Item) -> bool {
    matches!(item, Item::Unknown { .. })
}

/// The number in a format's field for a distance, which is cut to it.
fn field(format: u32, distance: i64) -> u64 {
    let row = &FORMATS[format as usize];
    let steps = (row.greatest - row.least) / row.step + 1;
    (distance / row.step).rem_euclid(steps) as u64
}

/// Whether a displacement is one that the Rust has cut or or-ed: of the format and the base that were
/// asked, with the bits of both in its field.
fn is_cut(r: &Request, item: &Item) -> bool {
    let (format, given) = (r.low(0), r.low(1));
    let by = if r.entry == DISP_IMM { r.args[2] as i64 } else { from_four(r) };
    let row = &FORMATS[format as usize];
    let number = row.read(given) | field(format, by);
    matches!(item, Item::Displacement { format: f, base, distance }
        if *f == format && *base == row.cleared(given) && field(format, *distance) == number)
}

/// Whether the Rust's words are read as their class says; where it leaves that open, anything is.
fn fits(class: Class, r: &Request, words: &[u32], found: &[Item]) -> bool {
    let masked = |registers: &[usize]| {
        let mut r = *r;
        registers.iter().for_each(|i| r.args[*i] %= 32);
        asked(&r, words)
    };
    match (class, found) {
        (AllOnes, all) => all.is_empty(),
        (MovnUpperHalf, [item]) => {
            let value = r.args[0] | 0xFFFF_FFFF_0000_0000;
            *item == Item::Constant { register: r.low(1), size: 64, value, words: 1 }
        }
        (MoveRegister31, all) => all.iter().all(unknown),
        (PatchableRegister, all) if r.low(2) % 32 == 31 => all.iter().all(unknown),
        (PatchableRegister, [item]) => *item == masked(&[2]),
        (LogicalRegister, [item]) => *item == masked(&[3, 4]),
        (DistanceCut | BaseOred | TargetFromFour, [item]) if r.low(0) != 5 => is_cut(r, item),
        (MovnUpperHalf | PatchableRegister | LogicalRegister, _) => false,
        _ => true,
    }
}

#[test]
fn the_rusts_words_are_read_as_their_class_says() {
    for (class, r, words) in old_words() {
        let found = read(&words);
        assert!(fits(class, &r, &words, &found), "{class:?}, {r}: {words:08x?} are {found:x?}");
        for word in words {
            let normal = !matches!(read(&[word])[..], [Item::Logical(one)] if !one.normal);
            assert_eq!(rewrite(word) == word, normal, "{word:08x}");
        }
    }
}

/// How often the Rust's words of a class, request by request, are read as each kind of item.
type Kinds = BTreeMap<&'static str, u64>;

fn kind(r: &Request, item: &Item) -> &'static str {
    match item {
        Item::Constant { .. } => "constants",
        Item::LoneMovk { .. } => "lone MOVKs",
        Item::Logical(_) => "logical immediates",
        Item::Displacement { .. } if r.entry == LOGICAL_WORD => "displacements",
        Item::Displacement { format, .. } if *format == r.low(0) => "displacements of the format",
        Item::Displacement { .. } => "displacements of another",
        Item::Unknown { .. } => "unknown",
    }
}

/// A class as the page names it, for those in which the Rust leaves words.
fn name(class: Class) -> &'static str {
    match class {
        AllOnes => "moves: all ones",
        MovnUpperHalf => "moves: up to FFFFFFFF by MOVN",
        MoveRegister31 => "moves: register 31",
        MoveRegisterAbove31 => "moves: register above 31",
        PatchableRegister => "patchable moves: register above 30",
        LogicalRegister => "logical word: register above 31",
        LogicalWidth => "logical word: other widths",
        DistanceCut => "displacements: out of range",
        BaseOred => "displacements: field bits set in the base",
        WrongForm => "displacements: the base is no instruction of the format",
        LdrSplit => "displacements: LDR 19",
        TargetFromFour => "displacements: immediate targets",
        TargetOverflow => "displacements: the distance overflows",
        Unaligned => "the base address is no multiple of 4",
        other => panic!("the Rust leaves no words in {other:?}"),
    }
}

/// Lines `| class | requests | what their words are read as |`.
fn counted() -> Vec<String> {
    let mut all: BTreeMap<Class, (u64, Kinds)> = BTreeMap::new();
    for (class, r, words) in old_words() {
        let (requests, kinds) = all.entry(class).or_default();
        *requests += 1;
        for item in read(&words) {
            *kinds.entry(kind(&r, &item)).or_default() += 1;
        }
    }
    let told = |kinds: &Kinds| match kinds.len() {
        0 => "nothing".to_string(),
        _ => kinds.iter().map(|(kind, n)| format!("{kind} {n}")).collect::<Vec<_>>().join(", "),
    };
    let line = |(class, (n, kinds)): (&Class, &(u64, Kinds))| {
        format!("| {} | {n} | {} |", name(*class), told(kinds))
    };
    all.iter().map(line).collect()
}

/// An item in words.
fn text(item: &Item) -> String {
    match *item {
        Item::Constant { register, size, value, words } => {
            let words = if words == 1 { String::new() } else { format!(", {words} words") };
            format!("constant {value:X} in register {register} at {size}{words}")
        }
        Item::LoneMovk { register, size, halfword, place } => {
            format!("MOVK of {halfword:X} to place {place} of register {register} at {size}")
        }
        Item::Logical(Logical { operation, width, rn, rd, value, n, s, r, normal, .. }) => {
            let operation = ["AND", "ORR", "EOR", "ANDS"][operation as usize];
            let normal = if normal { "" } else { ", not normal" };
            format!("{operation} {value:X} at {width}, {rn} to {rd}, fields {n},{s},{r}{normal}")
        }
        Item::Displacement { format, base, distance } => {
            format!("format {format}, base {base:08X}, distance {distance}")
        }
        Item::Unknown { .. } => "unknown".to_string(),
    }
}

/// Examples: what is asked, in the page's words, and the request.
fn examples() -> Vec<(&'static str, Request)> {
    let mov = |value, rd| Request::new(MOVE, &[value, rd, 4, 0]);
    let patchable = |value, size, rd| Request::new(PATCHABLE_MOVE, &[value, size, rd, 4, 0]);
    let logical = |value, width, rn| Request::new(LOGICAL_WORD, &[0, value, width, rn, 0, 1, 0]);
    let by = |format, base, distance: i64| {
        Request::new(DISP_IMM, &[format, base, distance as u64, 1, 0])
    };
    let to = |format, base, target| Request::new(DISP_TARGET, &[format, base, target, 1, 0, 0]);
    vec![
        ("FFFFFFFFFFFFFFFF to 3", mov(u64::MAX, 3)),
        ("1FFFF to 0", mov(0x1_FFFF, 0)),
        ("FFFFFFFF to 0", mov(0xFFFF_FFFF, 0)),
        ("12345678 to 31", mov(0x1234_5678, 31)),
        ("0 to 32", mov(0, 32)),
        ("12345678 at size 32 to 31", patchable(0x1234_5678, 32, 31)),
        ("12345678 at size 32 to 33", patchable(0x1234_5678, 32, 33)),
        ("AND FF at 64, 63 to 0", logical(0xFF, 64, 63)),
        ("AND F0 at 16, 0 to 0", logical(0xF0, 16, 0)),
        ("AND FF at 65, 0 to 0", logical(0xFF, 65, 0)),
        ("14000000, branch 26, 134217728", by(0, 0x1400_0000, 134217728)),
        ("10000000, ADR, 1048576", by(3, 0x1000_0000, 1048576)),
        ("14000001, branch 26, 8", by(0, 0x1400_0001, 8)),
        ("10000000, branch 26, 4", by(0, 0x1000_0000, 4)),
        ("14000000, ADR, 1", by(3, 0x1400_0000, 1)),
        ("58000000 (LDR X), LDR 19, 4", by(5, 0x5800_0000, 4)),
        ("58000000 (LDR X), LDR 19, 8", by(5, 0x5800_0000, 8)),
        ("58000000 (LDR X), LDR 19, 16", by(5, 0x5800_0000, 16)),
        ("18000000 (LDR W), LDR 19, 8", by(5, 0x1800_0000, 8)),
        ("98000000 (LDRSW), LDR 19, 8", by(5, 0x9800_0000, 8)),
        ("1C000000 (LDR S), LDR 19, 8", by(5, 0x1C00_0000, 8)),
        ("9C000000 (LDR Q), LDR 19, 8", by(5, 0x9C00_0000, 8)),
        ("14000000, branch 26, to 4 from 0", to(0, 0x1400_0000, 4)),
        ("14000000, branch 26, to 8000000000000000 from 0", to(0, 0x1400_0000, 1 << 63)),
        ("0 to 0 at base address 1", mov(0, 0).moved(1)),
    ]
}

/// Lines `| class | asked | the Rust's words | what they are read as |`.
fn example_lines() -> Vec<String> {
    let line = |(asked, r): (&str, Request)| {
        let Ok(Settled::Differs(class, _)) = settle(&r) else { panic!("{asked}: no difference") };
        let words = of_the_rust(&r).unwrap_or_else(|| panic!("{asked}: the Rust says no"));
        let joined = |all: Vec<String>, none: &str| match all.len() {
            0 => none.to_string(),
            _ => all.join("; "),
        };
        let spelled = joined(words.iter().map(|word| format!("{word:08X}")).collect(), "none");
        let found = joined(read(&words).iter().map(text).collect(), "nothing");
        format!("| {} | {asked} | {spelled} | {found} |", name(class))
    };
    examples().into_iter().map(line).collect()
}

/// The page has every line, those of each table one behind the other. Where overflows are checked
/// the Rust panics at some targets, so that it has fewer words.
#[test]
#[cfg_attr(debug_assertions, ignore = "the lists are those of an optimised build")]
fn the_page_has_these_lines() {
    let page = Path::new(env!("CARGO_MANIFEST_DIR")).join("../docs/DIFFERENCES.md");
    let page = fs::read_to_string(page).unwrap();
    for table in [example_lines(), counted()] {
        let lines = table.join("\n");
        assert!(page.contains(&format!("|\n{lines}\n\n")), "docs/DIFFERENCES.md has not\n{lines}");
    }
}
