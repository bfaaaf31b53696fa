//! Words read back: constants, logical immediates and displacements, and words written again from their own fields.

use core::iter::FusedIterator;

use crate::{raw, ByteDistance, Error, Fields, Format, LogicalOp, Reg, Width, WordPos};

/// What stands at a position of a run of words.
///
/// ```
/// use vaimalofo::{read_at, Item, Read, WordPos};
///
/// let Some(Read { position, words, item }) = read_at(&[0xD503201F], WordPos(0))? else {
///     panic!("a run of one word has an item");
/// };
/// assert_eq!((position, words), (WordPos(0), 1));
/// assert_eq!(item, Item::Unknown { word: 0xD503201F });
/// # Ok::<(), vaimalofo::Error>(())
/// ```
#[derive(Clone, Copy, Debug, PartialEq, Eq, Hash)]
pub struct Read {
    /// The position of its first word.
    pub position: WordPos,
    /// How many words it has; one, but for a constant.
    pub words: usize,
    /// What it is.
    pub item: Item,
}

/// What words are to Arm, among the instructions that this package writes.
///
/// ```
/// use vaimalofo::{read, Item, LogicalOp, Reg, Width};
///
/// // AND X0, X1, #0xAAAAAAAAAAAAAAAA with R 5, where the encoder would have given R 1.
/// let Some(Item::Logical { operation, value, fields, normal, .. }) =
///     read(&[0x9205F020]).next().map(|read| read.item)
/// else {
///     panic!("it is a logical immediate");
/// };
/// assert_eq!((operation, value), (LogicalOp::And, 0xAAAAAAAAAAAAAAAA));
/// assert_eq!((fields.r, fields.length, normal), (5, 2, false));
/// ```
// A later request may have more of them.
#[derive(Clone, Copy, Debug, PartialEq, Eq, Hash)]
#[non_exhaustive]
pub enum Item {
    /// A MOVZ or MOVN, and the MOVK words that follow it at the same register and size.
    Constant {
        /// The register that they write, X0 to X30.
        register: Reg,
        /// The register's size.
        width: Width,
        /// What they leave in it, in all 64 bits.
        value: u64,
    },
    /// A MOVK that follows no MOVZ or MOVN of its register and size.
    Movk {
        /// The register that it writes, X0 to X30.
        register: Reg,
        /// The register's size.
        width: Width,
        /// The halfword.
        halfword: u16,
        /// Where it goes: to the 16 bits from bit 16 * `place` on.
        place: u32,
    },
    /// AND, ORR, EOR or ANDS with an immediate.
    Logical {
        /// What is done.
        operation: LogicalOp,
        /// At which width.
        width: Width,
        /// The register that is read.
        rn: Reg,
        /// The register that is written.
        rd: Reg,
        /// The immediate's value; at width 32 the higher bits are 0.
        value: u64,
        /// The fields that spell it in this word.
        fields: Fields,
        /// Whether R is below the element's length, as [`logical_fields`](crate::logical_fields) gives it.
        normal: bool,
    },
    /// An instruction of one of the six formats.
    Displacement {
        /// The format.
        format: Format,
        /// The word with nothing in its field.
        base: u32,
        /// The distance, from the instruction; for ADRP, from its page.
        distance: ByteDistance,
    },
    /// Any other word.
    Unknown {
        /// The word.
        word: u32,
    },
}

impl Item {
    /// The item of a kind and its numbers, as [`raw::read`] gives them; none of the kind of the run's end. The entry gives no other
    /// kinds, registers, sizes, operations and formats than these types have.
    #[inline]
    fn of(kind: u64, numbers: &[u64; 11]) -> Option<Item> {
        let [_, a, b, c, d, e, n, s, r, length, normal] = *numbers;
        Some(match kind {
            0 => return None,
            1 => Item::Constant { register: register(a), width: width(b), value: c },
            2 => Item::Movk {
                register: register(a),
                width: width(b),
                halfword: c as u16,
                place: d as u32,
            },
            3 => Item::Logical {
                operation: LogicalOp::ALL[a as usize % LogicalOp::ALL.len()],
                width: width(b),
                rn: register(c),
                rd: register(d),
                value: e,
                fields: Fields { n: n as u32, s: s as u32, r: r as u32, length: length as u32 },
                normal: normal == 1,
            },
            4 => Item::Displacement {
                format: Format::ALL[a as usize % Format::ALL.len()],
                base: b as u32,
                distance: ByteDistance(c as i64),
            },
            _ => Item::Unknown { word: a as u32 },
        })
    }
}

#[inline]
fn register(number: u64) -> Reg {
    Reg::new(number as u32).unwrap_or(Reg::R31)
}

#[inline]
fn width(bits: u64) -> Width {
    Width::from_bits(bits as u32).unwrap_or(Width::W64)
}

/// What stands at a position of a run of words; nothing at its end.
///
/// A MOVZ or MOVN and the MOVK words that follow at the same register and size are one constant, however many they are; every other
/// word stands for itself. A wide move to register 31 is unknown.
///
/// # Errors
/// [`Error::NoRoom`] past the end.
///
/// ```
/// use vaimalofo::{read_at, ByteDistance, Error, Format, Item, Read, Reg, Width, WordPos};
///
/// let code = [0xD28ACF00, 0xF2A24680, 0x17FFFFFE];
/// let constant = Item::Constant { register: Reg::X0, width: Width::W64, value: 0x12345678 };
/// let first = Read { position: WordPos(0), words: 2, item: constant };
/// assert_eq!(read_at(&code, WordPos(0)), Ok(Some(first)));
///
/// // From its middle on a constant is not one: its MOVK stands alone.
/// let Some(Read { item: Item::Movk { halfword, place, .. }, .. }) = read_at(&code, WordPos(1))? else {
///     panic!("it is a MOVK");
/// };
/// assert_eq!((halfword, place), (0x1234, 1));
///
/// let back = Item::Displacement {
///     format: Format::Branch26,
///     base: 0x14000000,
///     distance: ByteDistance(-8),
/// };
/// assert_eq!(read_at(&code, WordPos(2))?.map(|read| read.item), Some(back));
/// assert_eq!(read_at(&code, WordPos(3)), Ok(None));
/// assert_eq!(read_at(&code, WordPos(4)), Err(Error::NoRoom { position: WordPos(4), words: 3 }));
/// # Ok::<(), Error>(())
/// ```
#[inline]
pub fn read_at(words: &[u32], position: WordPos) -> Result<Option<Read>, Error> {
    let mut numbers = [0; 11];
    let kind = raw::read(words, position.0, &mut numbers)
        .map_err(|_| Error::NoRoom { position, words: words.len() })?;
    let count = (numbers[0] as usize).saturating_sub(position.0);
    Ok(Item::of(kind, &numbers).map(|item| Read { position, words: count, item }))
}

/// A run of words read back, item by item: every word stands in exactly one of them.
///
/// An archived overlay to its constants:
///
/// ```
/// use vaimalofo::{read, words, Item, Read};
///
/// // MOVZ X0 and MOVK X0, a branch, MOVN W3, and a word that is nothing of what is read.
/// let overlay = [
///     0x00, 0xCF, 0x8A, 0xD2, 0x80, 0x46, 0xA2, 0xF2, 0x03, 0x00, 0x00, 0x14, 0x03, 0x00, 0x80, 0x12,
///     0x1F, 0x20, 0x03, 0xD5,
/// ];
/// let words: Vec<u32> = words(&overlay).collect();
/// let constants: Vec<String> = read(&words)
///     .filter_map(|Read { position, item, .. }| match item {
///         Item::Constant { register, value, .. } => {
///             Some(format!("word {}: register {} is {value:x}", position.0, register.number()))
///         }
///         _ => None,
///     })
///     .collect();
/// assert_eq!(constants, ["word 0: register 0 is 12345678", "word 3: register 3 is ffffffff"]);
/// ```
#[inline]
pub fn read(words: &[u32]) -> Reads<'_> {
    Reads { words, position: WordPos(0) }
}

/// The iterator of [`read`].
///
/// ```
/// use vaimalofo::{read, WordPos};
///
/// let mut reads = read(&[0xD2800020, 0xF2A00040, 0xF2A00041]);
/// assert_eq!(reads.size_hint(), (1, Some(3)));
/// assert_eq!(reads.next().map(|read| (read.position, read.words)), Some((WordPos(0), 2)));
/// assert_eq!(reads.next().map(|read| (read.position, read.words)), Some((WordPos(2), 1)));
/// assert_eq!(reads.next(), None);
/// ```
#[derive(Clone, Debug)]
pub struct Reads<'a> {
    words: &'a [u32],
    position: WordPos,
}

impl Iterator for Reads<'_> {
    type Item = Read;

    #[inline]
    fn next(&mut self) -> Option<Read> {
        let read = read_at(self.words, self.position).ok()??;
        self.position.0 += read.words;
        Some(read)
    }

    #[inline]
    fn size_hint(&self) -> (usize, Option<usize>) {
        let left = self.words.len().saturating_sub(self.position.0);
        (left.min(1), Some(left))
    }
}

impl FusedIterator for Reads<'_> {}

/// A word written again from what it is read as: the same word, but for a logical immediate that is not normal, which is given in its
/// normal spelling.
///
/// ```
/// use vaimalofo::rewrite;
///
/// // A MOVZ, a branch, a word that is unknown.
/// for word in [0xD28ACF00, 0x17FFFFFF, 0xD503201F] {
///     assert_eq!(rewrite(word), word);
/// }
/// // AND X0, X1, #0xAAAAAAAAAAAAAAAA: R 5 at an element of 2 bits is R 1.
/// assert_eq!(rewrite(0x9205F020), 0x9201F020);
/// ```
#[inline]
pub fn rewrite(word: u32) -> u32 {
    raw::rewrite(word)
}
