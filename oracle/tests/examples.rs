//! Document 01's examples, asked of its model and, where it has no departure, of the Rust; and
//! examples of document 02's requests f, g and h. By request d logical fields have a length.

use std::fs;
use std::path::Path;

use oracle::document::No;
use oracle::document::displacements::{
    FORMATS, FORMS, disp_word, distance, emit_disp_imm, emit_disp_target, has_form, low_12,
    read_disp,
};
use oracle::document::immediates::{encode_byte_mask, encode_float, expand_float};
use oracle::document::logical::{encode_logical_imm, normalise, put_logical_word};
use oracle::document::moves::{
    encode_mov_sequence64, encode_patchable_mov_imm, move_words, patchable_words,
};
use oracle::document::simd::{element_type_to_size_op, pick_fp_opcode};
use oracle::document::words::{Place, put, put_bytes};
use oracle::replay::by_document;
use oracle::replay::request::Request;
use oracle::rust;

/// The requests of `crates/examples`, which no list makes: the model answers them as it is stored.
#[test]
fn the_stored_examples() {
    let folder = Path::new(env!("CARGO_MANIFEST_DIR")).join("../crates/examples");
    let asked = fs::read(folder.join("stdin")).unwrap();
    let number = |eight: &[u8]| u64::from_le_bytes(eight.try_into().unwrap());
    let numbers: Vec<u64> = asked.chunks(8).map(number).collect();
    let text =
        |request: &[u64]| by_document::answer(&Request::new(request[0], &request[1..])).text();
    let answers: String = numbers.chunks(Request::BYTES / 8).map(text).collect();
    assert_eq!(answers, fs::read_to_string(folder.join("stdout")).unwrap());
}

#[test]
fn examples_1_to_6_logical_fields() {
    let examples = [
        (0xFF, 64, Ok([1, 7, 0, 64])),
        (0x1_0000_00FF, 32, Ok([0, 7, 0, 32])),
        (0xAAAA_AAAA_AAAA_AAAA, 64, Ok([0, 60, 1, 2])),
        (0x8000_0000_0000_0001, 64, Ok([1, 1, 1, 64])),
        (5, 64, Err(No(3))),
        (0xFFFF_FFFF, 32, Err(No(3))),
        (0x5555_5555_5555_5555, 64, Ok([0, 60, 0, 2])),
    ];
    for (value, width, answer) in examples {
        assert_eq!(encode_logical_imm(value, width), answer);
        // The Rust has no length.
        let fields = answer.ok().map(|[n, s, r, _]| [n, s, r]);
        assert_eq!(rust::encode_logical_imm(value, width), Ok(fields));
    }
}

#[test]
fn example_7_normalises_at_both_widths() {
    assert_eq!(normalise([0, 60, 5], 64), Ok([0, 60, 1, 2]));
    assert_eq!(normalise([0, 60, 5], 32), Ok([0, 60, 1, 2]));
}

#[test]
fn examples_8_to_10_moves() {
    let spelled = [
        (0x1234_5678, 0, vec![0xD28A_CF00, 0xF2A2_4680]),
        (0x1_0000_0000_0000, 0, vec![0xD2E0_0020]),
    ];
    for (value, rd, words) in spelled {
        assert_eq!(move_words(value, rd), Ok(words.clone()));
        assert_eq!(rust::encode_mov_sequence64(value, rd, 1), words);
    }
    // The Rust's short MOVN has bit 31 set.
    for (value, rd, word) in [(0xFFFF_FFFE, 1, 0x1280_0021), (0x1_FFFF, 0, 0x12BF_FFC0)] {
        assert_eq!(move_words(value, rd), Ok(vec![word]));
        assert_eq!(rust::encode_mov_sequence64(value, rd, 1), [word | 0x8000_0000]);
    }
}

#[test]
fn moves_of_the_batch_example() {
    assert_eq!(move_words(u64::MAX, 3), Ok(vec![0x9280_0003]));
    assert_eq!(rust::encode_mov_sequence64(u64::MAX, 3, 1), []);
    assert_eq!(move_words(0, 31), Err(No(2)));
    assert_eq!(patchable_words(0, 64, 31), Err(No(2)));
}

#[test]
fn example_11_branch_26() {
    let (base, word) = (0x1400_0000, 0x17FF_FFFF);
    assert_eq!(disp_word(0, base, -4), Ok(word));
    assert_eq!(rust::emit_disp_imm(0, base, -4), Some(Some(word)));
    assert_eq!(read_disp(word, 0), Ok(-4));
    assert_eq!(disp_word(0, base, 134217728), Err(No(5)));
    assert_eq!(disp_word(0, base, 2), Err(No(4)));
    assert_eq!(rust::emit_disp_imm(0, base, 2), Some(None));
    assert_eq!(disp_word(0, 0x1400_0001, 0), Err(No(6)));
    // Off the step is tested before the range.
    assert_eq!(disp_word(0, base, 134217730), Err(No(4)));
}

#[test]
fn example_12_ldr_and_adr() {
    assert_eq!(disp_word(5, 0x5800_0000, 8), Ok(0x5800_0040));
    assert_eq!(disp_word(3, 0x1000_0000, 5), Ok(0x3000_0020));
    assert_eq!(rust::emit_disp_imm(3, 0x1000_0000, 5), Some(Some(0x3000_0020)));
    // The Rust's LDR: X at +4 is a store, W at +8 an LDR to X, LDRSW at +8 a PRFM, S at +8 an LDR to D.
    assert_eq!(rust::emit_disp_imm(5, 0x5800_0000, 4), Some(Some(0x7800_0000)));
    assert_eq!(rust::emit_disp_imm(5, 0x1800_0000, 8), Some(Some(0x5800_0000)));
    assert_eq!(rust::emit_disp_imm(5, 0x9800_0000, 8), Some(Some(0xD800_0000)));
    assert_eq!(rust::emit_disp_imm(5, 0x1C00_0000, 8), Some(Some(0x5C00_0000)));
}

#[test]
fn run_only_small_immediates() {
    assert_eq!(encode_float(1f64.to_bits(), 64), Ok(112));
    assert_eq!(rust::encode_fp64_to_imm8(1f64.to_bits()), 112);
    assert_eq!(encode_float(0, 64), Err(No(3)));
    assert_eq!(encode_byte_mask(0xFF00_0000_0000_00FF), Ok(129));
    assert_eq!(rust::encode_imm64_byte_mask_to_imm8(0xFF00_0000_0000_00FF), 129);
}

#[test]
fn edges_that_document_01_does_not_list() {
    assert_eq!(rust::encode_logical_imm(1, 2), Ok(Some([0, 60, 0])));
    assert_eq!(rust::encode_logical_imm(0xF0, 16), Ok(Some([0, 35, 12])));
    assert_eq!(rust::encode_mov_sequence64(0, 32, 1), [0xD280_0020]);
    assert_eq!(rust::shift_op_to_ld_st_op(16), Err(rust::Panics));
    let overflow = if cfg!(debug_assertions) { Err(rust::Panics) } else { Ok(Some(0x17FF_FFFF)) };
    assert_eq!(rust::emit_rel(0, 0x1400_0000, 1 << 63, 0), Some(overflow));
    assert_eq!(disp_word(0, 0x1400_0000, distance(0, 1 << 63, 0)), Err(No(5)));
    assert_eq!(rust::pick_fp_opcode(5, 0, (1, 6), (0, 0)), Some(Err(rust::Panics)));
    assert_eq!(rust::pick_fp_opcode(1, 0, (1, 6), (0, 0)), Some(Ok((None, None))));
    assert_eq!(
        rust::pick_fp_opcode(7, 4, (0, 0), (0x0EA0_F820, 3)),
        Some(Ok((Some(0x4EA0_F820), Some(2))))
    );
    assert_eq!(
        rust::pick_fp_opcode(6, 4, (0, 0), (0x0E20_D400, 4)),
        Some(Ok((Some(0x0E60_D400), Some(2))))
    );
}

/// Every top byte with several lower bits, none to all of them, and bit 4 clear and set: no form
/// fixes another bit.
fn words() -> impl Iterator<Item = u32> {
    let lower = [0, 1, 0xF, 0x10, 0x1F, 0x20, 1 << 18, 1 << 19, 1 << 23, 0xFF_FFEF, 0xFF_FFFF];
    (0..256).flat_map(move |top| lower.map(|low| top << 24 | low))
}

#[test]
fn a_base_is_taken_exactly_where_the_field_stands() {
    let formats = [
        (0x1400_0000, 0x03FF_FFFF),
        (0x5400_0000, 0x00FF_FFE0),
        (0x3600_0000, 0x0007_FFE0),
        (0x1000_0000, 0x60FF_FFE0),
        (0x9000_0000, 0x60FF_FFE0),
        (0x5800_0000, 0x00FF_FFE0),
    ];
    for (format, (base, field)) in (0..).zip(formats) {
        for bit in (0..32).map(|bit| 1u32 << bit) {
            let taken = disp_word(format, base | bit, 0) == Err(No(6));
            assert_eq!(taken, field & bit != 0, "{format}: {base:08x} with {bit:x}");
        }
    }
}

/// The diagrams against masks put down beside them.
#[test]
fn the_forms_by_masks() {
    for word in words() {
        let fixed = |mask: u32, bits: u32| word & mask == bits;
        let forms = [
            fixed(0x7C00_0000, 0x1400_0000),
            fixed(0xFF00_0010, 0x5400_0000) || fixed(0x7E00_0000, 0x3400_0000),
            fixed(0x7E00_0000, 0x3600_0000),
            fixed(0x9F00_0000, 0x1000_0000),
            fixed(0x9F00_0000, 0x9000_0000),
            fixed(0x3B00_0000, 0x1800_0000) && !fixed(0xFF00_0000, 0xDC00_0000),
        ];
        for (format, form) in (0..).zip(forms) {
            assert_eq!(has_form(format, word), Ok(form), "{format}: {word:08x}");
            let refused = disp_word(format, word, 0) == Err(No(11));
            assert_eq!(refused, !form, "{format}: {word:08x}");
        }
        assert!(forms.iter().filter(|form| **form).count() < 2, "{word:08x} has two forms");
    }
}

/// The displacement's letters stand where the table of formats has its field.
#[test]
fn the_diagrams_have_the_field() {
    for (format, forms) in FORMATS.iter().zip(FORMS) {
        for form in forms {
            let letters = form.diagram.chars().map(|letter| u32::from(letter == 'i'));
            let field = letters.fold(0, |word, bit| word << 1 | bit);
            let bits: u32 = format.field.iter().map(|(bits, _)| bits).sum();
            assert_eq!((format.read(field), field.count_ones()), ((1 << bits) - 1, bits));
        }
    }
}

#[test]
fn the_wrong_form_is_told_after_the_format_and_before_the_rest() {
    // An ADR word, its field taken, for a branch; off the step and out of range.
    assert_eq!(disp_word(0, 0x1000_0020, 2), Err(No(11)));
    assert_eq!(disp_word(0, 0x1000_0000, 134217730), Err(No(11)));
    assert_eq!(disp_word(6, 0x1000_0020, 2), Err(No(7)));
    assert_eq!(has_form(6, 0x1400_0000), Err(No(7)));
    assert_eq!(disp_word(0, 0x1400_0001, 134217730), Err(No(6)));
    // BC.cond, and an unallocated literal.
    assert_eq!(disp_word(1, 0x5400_0010, 4), Err(No(11)));
    assert_eq!(disp_word(5, 0xDC00_0000, 4), Err(No(11)));
    // The Rust looks at no base, and the reader at no form.
    assert_eq!(rust::emit_disp_imm(0, 0x1000_0000, 4), Some(Some(0x1000_0001)));
    assert_eq!(read_disp(0x1000_0001, 0), Ok(4));
}

#[test]
fn an_adrp_goes_to_any_target() {
    let adrp = |target, address| disp_word(4, 0x9000_0000, distance(4, target, address));
    assert_eq!((adrp(0x3000, 0x1FFF), low_12(4, 0x3000)), (Ok(0xD000_0000), Some(0)));
    assert_eq!((adrp(0x3FFF, 0x1000), low_12(4, 0x3FFF)), (Ok(0xD000_0000), Some(0xFFF)));
    assert_eq!(adrp(0x123, u64::MAX - 3), Ok(0xB000_0000));
    assert_eq!(adrp(0x1_0000_0FFF, 0x1000), Ok(0xF07F_FFE0));
    assert_eq!(adrp(0x1_0000_1000, 0x1FFF), Err(No(5)));
    assert_eq!(adrp(0x1000, 0x1_0000_1FFF), Ok(0x9080_0000));
    assert_eq!(adrp(0xFFF, 0x1_0000_1000), Err(No(5)));
    // By distance the bits count, and no other format carries them or loses them.
    assert_eq!(disp_word(4, 0x9000_0000, 0x2004), Err(No(4)));
    assert_eq!((distance(3, 0x3004, 0x3000), low_12(3, 0x3004)), (4, None));
    // The Rust wants the target on a page.
    assert_eq!(rust::emit_rel(4, 0x9000_0000, 0x3004, 0x1000), Some(Ok(None)));
    assert_eq!(rust::emit_rel(4, 0x9000_0000, 0x3000, 0x1000), Some(Ok(Some(0xD000_0000))));
}

/// The last multiple of 4: the word behind it has address 0.
const LAST: u64 = u64::MAX - 3;

#[test]
fn the_address_of_a_word() {
    let address = |base, position| Place { base, position }.address();
    assert_eq!([address(0, 0), address(0, 3), address(0x1000, 2)], [0, 12, 0x1008]);
    assert_eq!([address(LAST, 0), address(LAST, 1), address(LAST, 2)], [LAST, 0, 4]);
    assert_eq!([address(8, 1 << 62), address(8, u64::MAX)], [8, 4]);
}

#[test]
fn a_target_is_reached_from_the_address() {
    let to = |base, position, format, word, target| {
        let mut run = [0; 4];
        let said = emit_disp_target(&mut run, Place { base, position }, format, word, target);
        said.map(|said| (said, run[position as usize]))
    };
    // B to 20 from 12, and to the same target from other words and other bases.
    assert_eq!(to(0, 3, 0, 0x1400_0000, 20), Ok((4, 0x1400_0002)));
    assert_eq!(to(0, 2, 0, 0x1400_0000, 20), Ok((3, 0x1400_0003)));
    assert_eq!(to(8, 3, 0, 0x1400_0000, 20), Ok((4, 0x1400_0000)));
    // Around 2^64: from the last word to 0, from 0 back to it, and to itself.
    assert_eq!(to(LAST, 0, 0, 0x1400_0000, 0), Ok((1, 0x1400_0001)));
    assert_eq!(to(LAST, 1, 0, 0x1400_0000, LAST), Ok((2, 0x17FF_FFFF)));
    assert_eq!(to(LAST, 1, 0, 0x1400_0000, 0), Ok((2, 0x1400_0000)));
    // ADRP: page 0 is the one behind the last, and the page of the word at address 0.
    assert_eq!(to(LAST, 0, 4, 0x9000_0000, 0x123), Ok((1, 0xB000_0000)));
    assert_eq!(to(LAST, 1, 4, 0x9000_0000, 0x123), Ok((2, 0x9000_0000)));
    // In reach of one word, and not of the next.
    assert_eq!(to(LAST, 1, 2, 0x3600_0000, 0x8000), Err(No(5)));
    assert_eq!(to(LAST, 2, 2, 0x3600_0000, 0x8000), Ok((3, 0x3603_FFE0)));
}

#[test]
fn a_base_address_off_the_step_is_told_first() {
    for base in [1, 2, 3, 5, u64::MAX - 2, u64::MAX] {
        // There is no room either, and each entry has more to refuse.
        let (at, run) = (Place { base, position: 9 }, &mut [7; 2]);
        assert_eq!(put(run, at, Ok(vec![1])), Err(No(15)));
        assert_eq!(put(run, at, Err(No(7))), Err(No(15)));
        assert_eq!(put_logical_word(run, at, 4, 5, 16, (32, 32)), Err(No(15)));
        assert_eq!(encode_mov_sequence64(run, at, 0, 31), Err(No(15)));
        assert_eq!(encode_patchable_mov_imm(run, at, 0, 16, 31), Err(No(15)));
        assert_eq!(emit_disp_imm(run, at, 6, 0x1000_0020, 2), Err(No(15)));
        assert_eq!(emit_disp_target(run, at, 6, 0x1000_0020, 2), Err(No(15)));
        assert_eq!(put_bytes(&mut [7; 8], at, Ok(vec![])), Err(No(15)));
        // With all else right nothing is written.
        assert_eq!(encode_mov_sequence64(run, Place { base, position: 0 }, 0, 1), Err(No(15)));
        assert_eq!(run, &[7; 2]);
    }
}

#[test]
fn a_base_address_on_the_step_changes_no_order() {
    for base in [0, 4, LAST] {
        let (at, run) = (Place { base, position: 9 }, &mut [7; 2]);
        assert_eq!(put(run, at, Ok(vec![1])), Err(No(8)));
        assert_eq!(put(run, at, Err(No(7))), Err(No(7)));
        assert_eq!(put_logical_word(run, at, 4, 5, 16, (32, 32)), Err(No(7)));
        assert_eq!(encode_mov_sequence64(run, at, 0, 31), Err(No(2)));
        assert_eq!(encode_patchable_mov_imm(run, at, 0, 16, 31), Err(No(1)));
        assert_eq!(emit_disp_imm(run, at, 0, 0x1000_0020, 2), Err(No(11)));
        assert_eq!(emit_disp_target(run, at, 0, 0x1400_0000, base + 2), Err(No(4)));
        assert_eq!(put_bytes(&mut [7; 8], at, Ok(vec![])), Err(No(8)));
        assert_eq!(encode_mov_sequence64(run, Place { base, position: 1 }, 0, 1), Ok(2));
        assert_eq!(run, &[7, 0xD280_0001]);
    }
}

#[test]
fn the_three_float_widths_spell_the_same_number() {
    for imm8 in 0..256 {
        let [half, single, double] = [16, 32, 64].map(|width| expand_float(imm8, width).unwrap());
        let number = f64::from_bits(double);
        assert_eq!(f64::from(f32::from_bits(single as u32)), number);
        let power = 2f64.powi((half >> 10 & 31) as i32 - 15);
        let size = power * (1.0 + (half & 1023) as f64 / 1024.0);
        assert_eq!(if half >> 15 == 1 { -size } else { size }, number);
    }
}

#[test]
fn element_7() {
    assert_eq!(element_type_to_size_op(1, 15, 0xFFFF, 7, 7), Ok(255));
    assert_eq!(pick_fp_opcode(7, 7, (0, 0), (1, 1)), Err(No(3)));
    assert_eq!(pick_fp_opcode(7, 7, (0, 0), (1, 6)), Err(No(7)));
    assert_eq!(rust::element_type_to_size_op(0, 7, 7), None);
}
