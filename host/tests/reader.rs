//! Words read back: every kind with its numbers, both sides of the run's end and of the lent numbers' room, joins, what this package
//! writes and random words. Where an item has a typed form, it is held to the bare numbers.

use vaimalofo::{
    bytes, decode_logical, displacement, has_form, logical_fields, logical_word, mov,
    patchable_mov, raw, read, read_at, read_displacement, rewrite, Address, ByteDistance, Error,
    Fields, Format, Item, Logical, LogicalOp, Place, Read, Refusal, Reg, Width, WordPos,
};

const MOVZ: u32 = 0xD2800000;
const MOVN: u32 = 0x92800000;
const MOVK: u32 = 0xF2800000;
/// Bit 31 of an instruction: that it is of size 64.
const SIZE_64: u32 = 0x80000000;
const NOP: u32 = 0xD503201F;

/// What stands in a lent number before a call.
const BEFORE: u64 = 0xA5A5A5A5A5A5A5A5;

/// A wide move's word: a halfword to a place of a register.
const fn wide(base: u32, register: u32, place: u32, halfword: u32) -> u32 {
    base | place << 21 | halfword << 5 | register
}

/// The kind of what stands at a position, with its numbers: as many of them, and every other one stays.
fn numbers<const N: usize>(words: &[u32], position: usize) -> (u64, [u64; N]) {
    let mut all = [BEFORE; 16];
    let kind = raw::read(words, position, &mut all).expect("an answer");
    let (told, others) = all.split_at(N);
    assert!(others.iter().all(|other| *other == BEFORE), "{kind}: {all:x?}");
    (kind, told.try_into().expect("as many numbers"))
}

fn item(words: &[u32], position: usize) -> Item {
    read_at(words, WordPos(position)).expect("a position in the run").expect("an item").item
}

#[test]
fn every_kind() {
    let code = [
        wide(MOVZ, 3, 1, 0xBEEF),
        wide(MOVK ^ SIZE_64, 3, 1, 0x1234),
        0x92401C20, // AND X0, X1, #0xFF
        0x9000001E, // ADRP X30
        NOP,
    ];
    assert_eq!(numbers(&code, 0), (1, [1, 3, 64, 0xBEEF0000, 1]));
    let constant = Item::Constant { register: Reg::X3, width: Width::W64, value: 0xBEEF0000 };
    assert_eq!(item(&code, 0), constant);

    assert_eq!(numbers(&code, 1), (2, [2, 3, 32, 0x1234, 1]));
    let movk = Item::Movk { register: Reg::X3, width: Width::W32, halfword: 0x1234, place: 1 };
    assert_eq!(item(&code, 1), movk);

    assert_eq!(numbers(&code, 2), (3, [3, 0, 64, 1, 0, 0xFF, 1, 7, 0, 64, 1]));
    let and = Item::Logical {
        operation: LogicalOp::And,
        width: Width::W64,
        rn: Reg::X1,
        rd: Reg::X0,
        value: 0xFF,
        fields: Fields { n: 1, s: 7, r: 0, length: 64 },
        normal: true,
    };
    assert_eq!(item(&code, 2), and);

    assert_eq!(numbers(&code, 3), (4, [4, 4, 0x9000001E, 0]));
    let distance = ByteDistance(0);
    let adrp = Item::Displacement { format: Format::Adrp21, base: 0x9000001E, distance };
    assert_eq!(item(&code, 3), adrp);

    assert_eq!(numbers(&code, 4), (5, [5, u64::from(NOP), 4]));
    assert_eq!(item(&code, 4), Item::Unknown { word: NOP });

    let items: Vec<Read> = read(&code).collect();
    assert_eq!(
        items.iter().map(|read| read.item).collect::<Vec<_>>(),
        [constant, movk, and, adrp, Item::Unknown { word: NOP },]
    );
    assert!(items
        .iter()
        .zip(0..)
        .all(|(read, at)| (read.position, read.words) == (WordPos(at), 1)));
}

#[test]
fn the_end_and_the_room() {
    let code = [NOP; 3];
    for room in 0..=12 {
        let mut lent = vec![BEFORE; room];
        for position in [0, 2, 3, 4, usize::MAX] {
            let answer = raw::read(&code, position, &mut lent);
            let expected = match position {
                _ if room < 11 => Err(Refusal::NoRoom),
                0..=2 => Ok(5),
                3 => Ok(0),
                _ => Err(Refusal::NoRoom),
            };
            assert_eq!(answer, expected, "{position} with room for {room}");
            let written = if answer == Ok(5) { 3 } else { 0 };
            assert!(lent[written..].iter().all(|number| *number == BEFORE));
            lent.fill(BEFORE);
        }
    }
    assert_eq!(raw::read(&[], 0, &mut [0; 11]), Ok(0));
    assert_eq!(read_at(&[], WordPos(0)), Ok(None));
    let error = read_at(&code, WordPos(4)).unwrap_err();
    assert_eq!(error, Error::NoRoom { position: WordPos(4), words: 3 });
    assert_eq!(error.number(), 8);
    assert_eq!(error.to_string(), "no room at position 4 of a run of 3 words");
}

#[test]
fn an_iterator_that_has_ended_stays_so() {
    let mut reads = read(&[NOP]);
    assert_eq!(reads.size_hint(), (1, Some(1)));
    assert!(reads.next().is_some());
    for _ in 0..3 {
        assert_eq!(reads.size_hint(), (0, Some(0)));
        assert_eq!(reads.next(), None);
    }
    assert_eq!(read(&[]).next(), None);
}

#[test]
fn words_that_look_like_a_move() {
    for word in [
        wide(MOVZ, 31, 0, 1),
        wide(MOVN, 31, 0, 1),
        wide(MOVK, 31, 0, 1),
        wide(MOVZ ^ SIZE_64, 3, 2, 1),
        wide(MOVK ^ SIZE_64, 3, 3, 1),
        0xB2800000,           // opc 01
        0x92400020 ^ SIZE_64, // N 1 at width 32
        0x9200FC20,           // S all ones
    ] {
        assert_eq!(item(&[word], 0), Item::Unknown { word }, "{word:08x}");
    }
}

#[test]
fn joins() {
    let joined = |words: &[u32]| {
        let read = read(words).next().expect("an item");
        match read.item {
            Item::Constant { width, value, .. } => (read.words, width.bits(), value),
            _ => panic!("{read:?}"),
        }
    };
    let movk = |place, halfword| wide(MOVK, 3, place, halfword);
    // Six MOVK words: a later halfword overwrites an earlier one.
    let six = [
        wide(MOVZ, 3, 0, 1),
        movk(1, 2),
        movk(2, 3),
        movk(3, 4),
        movk(0, 5),
        movk(1, 6),
        movk(1, 7),
    ];
    assert_eq!(joined(&six), (7, 64, 0x0004000300070005));
    for length in 1..=6 {
        assert_eq!(joined(&six[..length]).0, length);
    }
    assert_eq!(joined(&[wide(MOVN, 3, 0, 0), movk(1, 0)]), (2, 64, 0xFFFFFFFF0000FFFF));
    let narrow = |word| word ^ SIZE_64;
    assert_eq!(joined(&[narrow(wide(MOVN, 3, 0, 0))]), (1, 32, 0xFFFFFFFF));
    let at_32 = [narrow(wide(MOVN, 3, 0, 0x5678)), narrow(movk(1, 0x1234))];
    assert_eq!(joined(&at_32), (2, 32, 0x1234A987));
    // What ends one: another register, another size, another instruction, a new MOVZ, a place that is none at size 32.
    for other in [wide(MOVK, 4, 1, 2), narrow(movk(1, 2)), NOP, six[0], 0x14000000] {
        assert_eq!(joined(&[six[0], other, movk(1, 2)]), (1, 64, 1));
    }
    assert_eq!(joined(&[narrow(six[0]), narrow(movk(2, 2))]), (1, 32, 1));
    // A MOVK at the start, and from the middle of a constant on.
    assert!(matches!(item(&six, 1), Item::Movk { register: Reg::X3, halfword: 2, place: 1, .. }));
}

/// Numbers that look random, and are the same in every run.
fn random() -> impl FnMut() -> u64 {
    let mut state = 0x9E3779B97F4A7C15_u64;
    move || {
        state ^= state << 13;
        state ^= state >> 7;
        state ^= state << 17;
        state
    }
}

#[test]
fn moves_are_read_as_asked() {
    let mut next = random();
    for round in 0..3000 {
        // Values with halfwords of 0 and FFFF among the others.
        let value = (0..4).fold(0, |value, _| {
            let halfword = [0, 0xFFFF, next() & 0xFFFF, next() & 1][next() as usize % 4];
            value << 16 | halfword
        });
        let register = Reg::new(round % 31).expect("a register");
        let other = Reg::new((round + 1) % 31).expect("a register");
        let mut code = [NOP; 16];
        let run = bytes(&mut code);
        let start = Place::at(Address(0));
        let second = mov(run, start, value, register).expect("room");
        let third = patchable_mov(run, second, value, Width::W64, other).expect("room");
        let end = patchable_mov(run, third, value, Width::W32, register).expect("room");
        let mut reads = read(&code);
        for (from, to, register, value) in [
            (start, second, register, value),
            (second, third, other, value),
            (third, end, register, value & 0xFFFFFFFF),
        ] {
            let read = reads.next().expect("a constant");
            assert_eq!(
                (read.position, read.words),
                (from.position, to.position.0 - from.position.0)
            );
            match read.item {
                Item::Constant { register: left_in, value: left, .. } => {
                    assert_eq!((left_in, left), (register, value), "{code:08x?}");
                }
                _ => panic!("{read:?}"),
            }
        }
        assert!(reads.all(|read| read.item == Item::Unknown { word: NOP }));
    }
}

#[test]
fn logical_words_are_read_as_asked() {
    let mut next = random();
    let mut tried = 0;
    for width in [Width::W32, Width::W64] {
        for all in 0..2 * 64 * 64 {
            let (n, s, r) = (all >> 12, all >> 6 & 63, all & 63);
            let Ok(value) = decode_logical(n, s, r, width) else { continue };
            let operation = LogicalOp::ALL[next() as usize % 4];
            let rn = Reg::new(next() as u32 % 32).expect("a register");
            let rd = Reg::new(next() as u32 % 32).expect("a register");
            let mut code = [0];
            let instruction = Logical { operation, width, rn, rd };
            logical_word(bytes(&mut code), Place::at(Address(0)), instruction, value)
                .expect("a word");
            let fields = logical_fields(value, width).expect("fields");
            let expected = Item::Logical { operation, width, rn, rd, value, fields, normal: true };
            assert_eq!(item(&code, 0), expected);
            tried += 1;
        }
    }
    // N 1 with 63 values of S, and at both widths N 0 with 57, each with all of R.
    assert_eq!(tried, (63 + 2 * 57) * 64);
}

#[test]
fn displacements_are_read_as_asked() {
    let bases = [
        (Format::Branch26, [0x14000000, 0x94000000]),
        (Format::Branch19, [0x54000001, 0xB500001F]),
        (Format::Branch14, [0x36000003, 0xB7F8001F]),
        (Format::Adr21, [0x10000000, 0x1000001F]),
        (Format::Adrp21, [0x90000000, 0x9000001F]),
        (Format::Ldr19, [0x58000000, 0x9C00001F]),
    ];
    let mut next = random();
    for (format, bases) in bases {
        let (least, greatest) = (*format.range().start(), *format.range().end());
        let steps = (greatest - least) / format.step() + 1;
        for round in 0..500 {
            let by = match round {
                0 => least,
                1 => greatest,
                2 => 0,
                _ => least + (next() as i64).rem_euclid(steps) * format.step(),
            };
            for base in bases {
                let (mut code, distance) = ([0], ByteDistance(by));
                displacement(bytes(&mut code), Place::at(Address(0)), format, base, distance)
                    .expect("a word");
                assert_eq!(item(&code, 0), Item::Displacement { format, base, distance });
                assert_eq!(rewrite(code[0]), code[0]);
            }
        }
    }
}

/// What a word is read as is what the other functions say of it, and it is written again as itself or in its normal spelling.
fn judge(word: u32) {
    let read_as = item(&[word], 0);
    let again = rewrite(word);
    assert_eq!(raw::rewrite(word), again);
    match read_as {
        Item::Logical { fields, normal, .. } => {
            assert_eq!(normal, fields.r < fields.length);
            let spelled = Fields { r: fields.r % fields.length, ..fields };
            let Item::Logical { operation, width, rn, rd, value, .. } = read_as else { return };
            let expected =
                Item::Logical { operation, width, rn, rd, value, fields: spelled, normal: true };
            assert_eq!(item(&[again], 0), expected);
            assert_eq!(again == word, normal);
        }
        Item::Displacement { format, base, distance } => {
            assert!(has_form(format, word) && has_form(format, base));
            assert_eq!(read_displacement(word, format), distance);
            assert_eq!(read_displacement(base, format), ByteDistance(0));
            assert_eq!(again, word);
        }
        Item::Unknown { word: told } => {
            assert_eq!((told, again), (word, word));
            assert!(Format::ALL.iter().all(|format| !has_form(*format, word)));
        }
        _ => assert_eq!(again, word),
    }
}

#[test]
fn random_words() {
    let mut next = random();
    for _ in 0..200_000 {
        let word = next() as u32;
        judge(word);
        // The same with the fixed bits of a wide move and of a logical immediate.
        judge(word & !0x1F800000 | 0x12800000);
        judge(word & !0x1F800000 | 0x12000000);
    }
}

#[test]
fn every_word_of_a_run_stands_in_one_item() {
    let mut next = random();
    for _ in 0..2000 {
        let code: Vec<u32> = (0..next() % 40)
            .map(|_| {
                let word = next() as u32;
                match word % 4 {
                    0 => word,
                    // A few registers, both sizes, so that some of them join.
                    _ => wide(
                        [MOVZ, MOVN, MOVK, MOVK][next() as usize % 4],
                        word >> 8 & 1,
                        word >> 9 & 1,
                        word >> 16,
                    ),
                }
            })
            .collect();
        let mut position = 0;
        for read in read(&code) {
            assert_eq!(read.position, WordPos(position));
            assert!(read.words > 0);
            assert_eq!(read_at(&code, read.position), Ok(Some(read)));
            position += read.words;
        }
        assert_eq!(position, code.len());
    }
}
