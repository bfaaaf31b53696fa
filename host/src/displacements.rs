//! Distances in branches, ADR, ADRP and LDR (literal).

use crate::error::{refused_at, Operands};
use crate::{raw, words, Address, ByteDistance, Error, Format, Place, Refusal};

/// What [`displacement_to`] or [`retarget_to`] has written.
///
/// ```
/// use vaimalofo::{displacement_to, Address, Format, Place, Reached};
///
/// let start = Place::at(Address(0x1234));
/// let Reached { place, low12 } =
///     displacement_to(&mut [0; 4], start, Format::Adrp21, 0x90000000, Address(0x3456))?;
/// assert_eq!((place.address(), low12), (Address(0x1238), Some(0x456)));
/// # Ok::<(), vaimalofo::Error>(())
/// ```
#[derive(Clone, Copy, Debug, PartialEq, Eq, Hash)]
pub struct Reached {
    /// The place just past the word.
    pub place: Place,
    /// For ADRP the low 12 bits of the target, for the ADD that follows; none at the other formats.
    pub low12: Option<u32>,
}

/// The distance from a place to a target, as the entries take it: from the instruction, and for ADRP from its page to the target's.
pub(crate) fn distance_to(format: Format, at: Place, target: Address) -> ByteDistance {
    let page = |address: u64| if format == Format::Adrp21 { address & !0xFFF } else { address };
    ByteDistance(page(target.0).wrapping_sub(page(at.address().0)) as i64)
}

/// Writes a base word with a distance placed in the field of a format. The distance counts from the instruction; for ADRP, from its
/// page. The base is an instruction of the format ([`has_form`]) with nothing in the field; every other bit of it stays.
///
/// # Errors
/// [`Error::Unaligned`], [`Error::WrongForm`] where the base is no instruction of the format, [`Error::Taken`] where it has a bit set in
/// the field, [`Error::Step`], [`Error::Range`], then [`Error::NoRoom`].
///
/// ```
/// use vaimalofo::{displacement, words, Address, ByteDistance, Error, Format, Place, WordPos};
///
/// let (ldr, b, adr) = (0x58000000, 0x14000000, 0x10000000);
/// let mut code = [0; 4];
/// let start = Place::at(Address(0));
/// let end = displacement(&mut code, start, Format::Ldr19, ldr, ByteDistance(8))?;
/// assert_eq!(end.position, WordPos(1));
/// assert!(words(&code).eq([0x58000040]));
///
/// let mut refused = |base, by| {
///     displacement(&mut code, start, Format::Branch26, base, ByteDistance(by)).unwrap_err()
/// };
/// assert_eq!(refused(b, 6).to_string(), "distance 6 is not a multiple of 4, the step of B and BL");
/// assert_eq!(
///     refused(b, 134217728).to_string(),
///     "distance 134217728 is outside -134217728..=134217724 of B and BL"
/// );
/// // A branch distance into an ADR word.
/// assert_eq!(refused(adr, 8).to_string(), "word 0x10000000 is no B or BL");
/// assert_eq!(refused(b + 1, 8).to_string(), "word 0x14000001 has bits set in the field of B and BL");
/// # Ok::<(), Error>(())
/// ```
#[inline]
pub fn displacement(
    bytes: &mut [u8],
    at: Place,
    format: Format,
    base: u32,
    distance: ByteDistance,
) -> Result<Place, Error> {
    raw::displacement(bytes, at, format.number(), base, distance.0).map_err(|refusal| {
        refused_at(refusal, bytes, at, Operands::Displacement(format, base, distance))
    })
}

/// The same to a target: the distance is the target minus the address of the instruction, which is that of its place
/// ([`Place::address`]), modulo 2^64 and read as signed. For ADRP both first lose their low 12 bits, so that the instruction gives the
/// target's page, wherever in it the target lies; the answer then has the target's low bits.
///
/// # Errors
/// Those of [`displacement`], in the same order; for ADRP never [`Error::Step`].
///
/// ```
/// use vaimalofo::{displacement_to, words, Address, Error, Format, Place, Reached, WordPos};
///
/// // The address 3456 (hex) in register 0: an ADRP at 1234, and behind it an ADD of the low bits, whose base is 91000000.
/// let mut code = [0; 8];
/// let start = Place::at(Address(0x1234));
/// let adrp = displacement_to(&mut code, start, Format::Adrp21, 0x90000000, Address(0x3456))?;
/// assert_eq!(adrp.low12, Some(0x456));
/// let add = 0x91000000 | adrp.low12.unwrap_or(0) << 10;
/// code[4 * adrp.place.position.0..][..4].copy_from_slice(&u32::to_le_bytes(add));
/// assert!(words(&code).eq([0xD0000000, 0x91115800]));
///
/// // A branch as the second word of a run at 1000, so from 1004 to 100C. No format but ADRP's has low bits.
/// let second = Place { base: Address(0x1000), position: WordPos(1) };
/// let branch = displacement_to(&mut code, second, Format::Branch26, 0x14000000, Address(0x100C))?;
/// let end = Place { base: Address(0x1000), position: WordPos(2) };
/// assert_eq!(branch, Reached { place: end, low12: None });
/// assert_eq!(words(&code).nth(1), Some(0x14000002));
/// let error = displacement_to(&mut code, second, Format::Branch26, 0x14000000, Address(0x100E));
/// assert_eq!(
///     error.unwrap_err().to_string(),
///     "distance 10 is not a multiple of 4, the step of B and BL"
/// );
///
/// // The second word of a run at FFFFFFFFFFFFFFFC has the address 0.
/// let zero = Place { base: Address(0xFFFFFFFFFFFFFFFC), position: WordPos(1) };
/// displacement_to(&mut code, zero, Format::Branch26, 0x14000000, Address(0x10))?;
/// assert_eq!(words(&code).nth(1), Some(0x14000004));
/// # Ok::<(), Error>(())
/// ```
#[inline]
pub fn displacement_to(
    bytes: &mut [u8],
    at: Place,
    format: Format,
    base: u32,
    target: Address,
) -> Result<Reached, Error> {
    raw::displacement_to(bytes, at, format.number(), base, target.0).map_err(|refusal| {
        let distance = distance_to(format, at, target);
        refused_at(refusal, bytes, at, Operands::Displacement(format, base, distance))
    })
}

/// Gives the word that stands at a place another distance: the field of the format is cleared, and the distance placed in it. Every
/// other bit stays.
///
/// # Errors
/// [`Error::Unaligned`], [`Error::NoRoom`] where no whole word stands at the place, [`Error::WrongForm`] where it is no instruction of
/// the format, [`Error::Step`], then [`Error::Range`].
///
/// ```
/// use vaimalofo::{displacement, retarget, words, Address, ByteDistance, Error, Format, Place};
///
/// // A forward CBZ X3 of which only the place is known yet, and its distance when that is.
/// let (mut code, start) = ([0; 4], Place::at(Address(0x1000)));
/// displacement(&mut code, start, Format::Branch19, 0xB4000003, ByteDistance(0))?;
/// retarget(&mut code, start, Format::Branch19, ByteDistance(8))?;
/// assert!(words(&code).eq([0xB4000043]));
/// retarget(&mut code, start, Format::Branch19, ByteDistance(-4))?;
/// assert!(words(&code).eq([0xB4FFFFE3]));
/// let error = retarget(&mut code, start, Format::Branch26, ByteDistance(8)).unwrap_err();
/// assert_eq!(error.to_string(), "word 0xb4ffffe3 is no B or BL");
/// # Ok::<(), Error>(())
/// ```
#[inline]
pub fn retarget(
    bytes: &mut [u8],
    at: Place,
    format: Format,
    distance: ByteDistance,
) -> Result<Place, Error> {
    raw::retarget(bytes, at, format.number(), distance.0)
        .map_err(|refusal| not_retargeted(refusal, bytes, at, format, distance))
}

/// The same to a target, which counts as it does for [`displacement_to`].
///
/// # Errors
/// Those of [`retarget`], in the same order; for ADRP never [`Error::Step`].
///
/// ```
/// use vaimalofo::{retarget_to, words, Address, Error, Format, Place, WordPos};
///
/// // A BL four words on, as the second word of a run at 1000: now to 2000.
/// let mut code = [0, 0, 0, 0, 4, 0, 0, 0x94];
/// let second = Place { base: Address(0x1000), position: WordPos(1) };
/// let end = retarget_to(&mut code, second, Format::Branch26, Address(0x2000))?.place;
/// assert_eq!(end.position, WordPos(2));
/// assert!(words(&code).eq([0, 0x940003FF]));
/// let error = retarget_to(&mut code, end, Format::Branch26, Address(0x2000)).unwrap_err();
/// assert_eq!(error, Error::NoRoom { position: WordPos(2), words: 2 });
/// # Ok::<(), Error>(())
/// ```
#[inline]
pub fn retarget_to(
    bytes: &mut [u8],
    at: Place,
    format: Format,
    target: Address,
) -> Result<Reached, Error> {
    raw::retarget_to(bytes, at, format.number(), target.0).map_err(|refusal| {
        not_retargeted(refusal, bytes, at, format, distance_to(format, at, target))
    })
}

/// The error of a retarget: the word that it is about is the one that stands there, where one does.
#[cold]
fn not_retargeted(
    refusal: Refusal,
    bytes: &[u8],
    at: Place,
    format: Format,
    distance: ByteDistance,
) -> Error {
    let word = words(bytes).nth(at.position.0).unwrap_or(0);
    refused_at(refusal, bytes, at, Operands::Displacement(format, word, distance))
}

/// Whether a word has the fixed bits of an instruction of a format, whatever its field holds. The functions that write a distance take
/// such words only.
///
/// ```
/// use vaimalofo::{has_form, Format};
///
/// assert!(has_form(Format::Branch19, 0x54000000));
/// // BC.cond is none, and neither is an LDR that Arm leaves unallocated.
/// assert!(!has_form(Format::Branch19, 0x54000010));
/// assert!(!has_form(Format::Ldr19, 0xDC000000));
/// ```
#[inline]
pub fn has_form(format: Format, word: u32) -> bool {
    raw::has_form(format.number(), word) == Ok(true)
}

/// The distance that any word spells at a format, as Arm reads it there.
///
/// ```
/// use vaimalofo::{read_displacement, ByteDistance, Format};
///
/// assert_eq!(read_displacement(0x17FFFFFF, Format::Branch26), ByteDistance(-4));
/// assert_eq!(read_displacement(0xD0000000, Format::Adrp21), ByteDistance(8192));
/// ```
#[inline]
pub fn read_displacement(word: u32, format: Format) -> ByteDistance {
    let distance = raw::read_displacement(word, format.number());
    ByteDistance(distance.expect("the entries know every format"))
}
