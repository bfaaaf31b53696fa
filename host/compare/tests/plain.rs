//! The plain Rust program that is timed, held to the model of document 01.

use compare::values;
use oracle::document::{logical, moves};
use oracle::lists::random::Random;

#[test]
fn as_document_01() {
    let mut random = Random::new(8 << 48);
    for i in 0..400_000 {
        let value = values::mixed(&mut random, i);
        let (words, count) = batch_plain::move_words(value, 7);
        assert_eq!(words[..count], moves::move_words(value, 7).unwrap());
        for width in [32, 64] {
            assert_eq!(
                batch_plain::logical_fields(value, width),
                logical::encode_logical_imm(value, width).ok(),
                "{value:x} at {width}"
            );
        }
    }
}
