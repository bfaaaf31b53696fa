//! Document 02's request b: labels bound late, and the uses that wait for them in a lent sheet; with
//! request h, by which the word of a use has its format's form, request f, by which an ADRP goes to
//! the label's page, and request g, by which word and label have their addresses from a base.
//!
//! The sheet and the table are the caller's memory: here they are what a call finds, wild numbers
//! among them, and a call changes only what it says.

use super::No;
use super::displacements::{self, FORMATS};
use super::words::Place;

/// Labels are 0 to 255.
pub const LABELS: usize = 256;

/// At most so many uses wait.
pub const USES: usize = 1024;

/// A label: where it is bound, a position up to the end of the run.
#[derive(Clone, Copy, Debug, PartialEq, Eq)]
pub enum Label {
    Unbound,
    Bound(u64),
}

impl Label {
    /// The label of an entry in a table of numbers: 0 is unbound, and else one more than the
    /// position.
    pub fn of_entry(entry: u64) -> Self {
        if entry == 0 { Self::Unbound } else { Self::Bound(entry - 1) }
    }

    /// Its entry.
    pub fn entry(self) -> u64 {
        match self {
            Self::Unbound => 0,
            Self::Bound(position) => position + 1,
        }
    }
}

/// A word that waits for a label.
#[derive(Clone, Copy, Debug, Default, PartialEq, Eq)]
pub struct Use {
    pub label: u32,
    pub position: u64,
    pub format: u32,
}

/// What a caller lends, and the count that it keeps: so many records of the sheet, from its start,
/// are uses that wait.
#[derive(Clone, Debug, PartialEq, Eq)]
pub struct Book {
    pub run: Vec<u32>,
    pub labels: Vec<Label>,
    pub sheet: Vec<Use>,
    pub count: u64,
}

impl Book {
    /// The label of a number. Refusal 12: there is none.
    fn label(&self, number: u32) -> Result<Label, No> {
        let number = number as usize;
        if number < LABELS && number < self.labels.len() {
            Ok(self.labels[number])
        } else {
            Err(No(12))
        }
    }

    /// How many uses can wait.
    fn room(&self) -> u64 {
        self.sheet.len().min(USES) as u64
    }

    /// The uses that wait; of a count beyond the sheet, all records that there are.
    fn waiting(&self) -> &[Use] {
        let there = self.sheet.len() as u64;
        &self.sheet[..self.count.min(there) as usize]
    }

    /// The word at a position. Refusal 8: there is none.
    fn word(&self, position: u64) -> Result<u32, No> {
        if position < self.run.len() as u64 { Ok(self.run[position as usize]) } else { Err(No(8)) }
    }

    /// Binds a label to a place. Order 15, 12, 13, 8 (past the end; the end itself is allowed).
    pub fn bind(&mut self, at: Place, number: u32) -> Result<(), No> {
        aligned(at.base)?;
        if self.label(number)? != Label::Unbound {
            return Err(No(13));
        }
        if at.position > self.run.len() as u64 {
            return Err(No(8));
        }
        self.labels[number as usize] = Label::Bound(at.position);
        Ok(())
    }

    /// Lets the word at a place wait for a label, and says how many wait then. Order 15, 7, 12, 8,
    /// 11, 6, 16, 14. The label need not be bound.
    pub fn use_label(&mut self, at: Place, number: u32, format: u32) -> Result<u64, No> {
        aligned(at.base)?;
        known(format)?;
        self.label(number)?;
        empty_base(format, self.word(at.position)?)?;
        if self.waiting().iter().any(|earlier| earlier.position == at.position) {
            return Err(No(16));
        }
        if self.count >= self.room() {
            return Err(No(14));
        }
        let position = at.position;
        self.sheet[self.count as usize] = Use { label: number, position, format };
        self.count += 1;
        Ok(self.count)
    }

    /// Writes the words of all uses that wait, after which none does. Order 15, 14, and then of each
    /// use in the sheet's order what `finished` tests. Refused, it has written nothing.
    pub fn finish(&mut self, base: u64) -> Result<u64, No> {
        aligned(base)?;
        if self.count > self.room() {
            return Err(No(14));
        }
        let mut words = vec![];
        for i in 0..self.waiting().len() {
            words.push(self.finished(base, i)?);
        }
        for (i, word) in words.into_iter().enumerate() {
            let position = self.sheet[i].position as usize;
            self.run[position] = word;
        }
        self.count = 0;
        Ok(self.count)
    }

    /// The word of use number i: what module 7's target entry gives for its base word, from the
    /// address of the word to that of the label. Order 7, 12 (no label or an unbound one), 8 (word
    /// or label), 11, 6, 16, 4, 5.
    fn finished(&self, base: u64, i: usize) -> Result<u32, No> {
        let Use { label, position, format } = self.sheet[i];
        known(format)?;
        let Label::Bound(target) = self.label(label)? else {
            return Err(No(12));
        };
        let word = self.word(position)?;
        if target > self.run.len() as u64 {
            return Err(No(8));
        }
        empty_base(format, word)?;
        if self.sheet[..i].iter().any(|earlier| earlier.position == position) {
            return Err(No(16));
        }
        let (at, to) = (Place { base, position }, Place { base, position: target });
        let distance = displacements::distance(format, to.address(), at.address());
        displacements::disp_word(format, word, distance)
    }
}

/// Refusal 15: the base is no multiple of 4.
fn aligned(base: u64) -> Result<(), No> {
    if (Place { base, position: 0 }).aligned() { Ok(()) } else { Err(No(15)) }
}

/// Refusal 7: no such format.
fn known(format: u32) -> Result<(), No> {
    if (format as usize) < FORMATS.len() { Ok(()) } else { Err(No(7)) }
}

/// A word of a known format, whose field is clear. Order 11, 6.
fn empty_base(format: u32, word: u32) -> Result<(), No> {
    if !displacements::has_form(format, word)? {
        return Err(No(11));
    }
    if FORMATS[format as usize].read(word) != 0 {
        return Err(No(6));
    }
    Ok(())
}

#[cfg(test)]
mod tests {
    use super::*;

    const B: u32 = 0x1400_0000;
    const CBZ: u32 = 0xB400_0003;
    const TBZ: u32 = 0x3608_0001;
    const ADR: u32 = 0x1000_0002;
    const ADRP: u32 = 0x9000_0004;
    const LDR: u32 = 0x5800_0005;

    fn book(run: &[u32], labels: usize, sheet: usize) -> Book {
        Book {
            run: run.to_vec(),
            labels: vec![Label::Unbound; labels],
            sheet: vec![Use::default(); sheet],
            count: 0,
        }
    }

    fn at(base: u64, position: u64) -> Place {
        Place { base, position }
    }

    /// A call, after which a refusal has left all as it was.
    fn call<T>(book: &mut Book, call: impl Fn(&mut Book) -> Result<T, No>) -> Result<T, No> {
        let before = book.clone();
        let said = call(book);
        if said.is_err() {
            assert_eq!(*book, before);
        }
        said
    }

    fn bind(book: &mut Book, at: Place, label: u32) -> Result<(), No> {
        call(book, |book| book.bind(at, label))
    }

    fn wait(book: &mut Book, at: Place, label: u32, format: u32) -> Result<u64, No> {
        call(book, |book| book.use_label(at, label, format))
    }

    fn finish(book: &mut Book, base: u64) -> Result<u64, No> {
        call(book, |book| book.finish(base))
    }

    /// All six formats, forward, backward and to the end; the records stay, and so do the labels.
    #[test]
    fn a_program() {
        let mut book = book(&[B, CBZ, TBZ, ADR, ADRP, LDR, 7, 8], 2, 6);
        for (position, label) in [(0, 1), (1, 0), (2, 1), (3, 0), (4, 1), (5, 0)] {
            let said = wait(&mut book, at(0x2FF0, position), label, position as u32);
            assert_eq!(said, Ok(position + 1));
        }
        assert_eq!(finish(&mut book, 0x2FF0), Err(No(12)));
        assert_eq!(bind(&mut book, at(0x2FF0, 2), 0), Ok(()));
        assert_eq!(bind(&mut book, at(0x2FF0, 8), 1), Ok(()));
        let (sheet, labels) = (book.sheet.clone(), book.labels.clone());
        assert_eq!(finish(&mut book, 0x2FF0), Ok(0));
        // The ADRP stands on page 3000, as the end does; the label of the ADR is 4 bytes back.
        let [b, cbz, tbz] = [B | 8, CBZ | 1 << 5, TBZ | 6 << 5];
        let [adr, adrp, ldr] = [ADR | 0x7FFFF << 5, ADRP, LDR | 0x7FFFD << 5];
        assert_eq!(book.run, [b, cbz, tbz, adr, adrp, ldr, 7, 8]);
        assert_eq!((book.sheet, book.labels, book.count), (sheet, labels, 0));
    }

    /// A label on the next page, or on the one before.
    #[test]
    fn pages() {
        for (base, position, word) in [(0xFF8, 2, 0xB000_0004), (u64::MAX - 7, 2, 0xB000_0004)] {
            let mut book = book(&[ADRP, 0, 0], 1, 1);
            assert_eq!(bind(&mut book, at(base, position), 0), Ok(()));
            assert_eq!(wait(&mut book, at(base, 0), 0, 4), Ok(1));
            assert_eq!(finish(&mut book, base), Ok(0));
            assert_eq!(book.run, [word, 0, 0]);
        }
        let mut book = book(&[0, 0, ADRP], 1, 1);
        assert_eq!(bind(&mut book, at(0xFF8, 0), 0), Ok(()));
        assert_eq!(wait(&mut book, at(0xFF8, 2), 0, 4), Ok(1));
        assert_eq!(finish(&mut book, 0xFF8), Ok(0));
        assert_eq!(book.run, [0, 0, 0xF0FF_FFE4]);
    }

    /// In their order, with all that come behind.
    #[test]
    fn refused_binds() {
        let mut book = book(&[B], 300, 1);
        assert_eq!(bind(&mut book, at(0, 1), 7), Ok(()));
        assert_eq!(bind(&mut book, at(1, 2), 256), Err(No(15)));
        assert_eq!(bind(&mut book, at(0, 2), 256), Err(No(12)));
        assert_eq!(bind(&mut book, at(0, 2), 7), Err(No(13)));
        assert_eq!(bind(&mut book, at(0, 2), 255), Err(No(8)));
        assert_eq!(bind(&mut book, at(0, 1), 255), Ok(()));
        book.labels.truncate(4);
        assert_eq!(bind(&mut book, at(0, 0), 4), Err(No(12)));
        assert_eq!(bind(&mut book, at(0, 0), 3), Ok(()));
    }

    #[test]
    fn refused_uses() {
        let mut book = book(&[7, B | 1, B, B], 300, 1);
        assert_eq!(wait(&mut book, at(0, 2), 0, 0), Ok(1));
        for (base, position, label, format, number) in [
            (2, 4, 256, 6, 15),
            (0, 4, 256, 6, 7),
            (0, 4, 256, 0, 12),
            (0, 4, 255, 0, 8),
            (0, 0, 255, 0, 11),
            (0, 1, 255, 0, 6),
            (0, 2, 255, 0, 16),
            (0, 3, 255, 0, 14),
        ] {
            assert_eq!(wait(&mut book, at(base, position), label, format), Err(No(number)));
        }
        // Of a count beyond the sheet only the records that there are count.
        book.count = u64::MAX;
        assert_eq!(wait(&mut book, at(0, 2), 0, 0), Err(No(16)));
        assert_eq!(wait(&mut book, at(0, 3), 0, 0), Err(No(14)));
    }

    /// A sheet of wild records, each of which has all that comes behind.
    #[test]
    fn refused_finishes() {
        let far = vec![B; 8194];
        let sound = Use { label: 1, position: 3, format: 0 };
        for (record, number) in [
            (Use { label: 256, position: 9000, format: 6 }, 7),
            (Use { label: 256, position: 9000, format: 0 }, 12),
            (Use { label: 0, position: 9000, format: 0 }, 12),
            (Use { label: 1, position: 9000, format: 0 }, 8),
            (Use { label: 2, position: 0, format: 0 }, 8),
            (Use { label: 1, position: 0, format: 0 }, 11),
            (Use { label: 1, position: 1, format: 0 }, 6),
            (Use { label: 1, position: 3, format: 0 }, 16),
            (Use { label: 1, position: 2, format: 2 }, 5),
        ] {
            let mut book = book(&far, 300, 2);
            book.run[..3].copy_from_slice(&[7, B | 1, TBZ]);
            book.labels[1] = Label::Bound(8194);
            book.labels[2] = Label::Bound(8195);
            book.sheet = vec![sound, record];
            book.count = 2;
            assert_eq!(finish(&mut book, 0), Err(No(number)));
            book.count = 3;
            assert_eq!(finish(&mut book, 1), Err(No(15)));
            assert_eq!(finish(&mut book, 0), Err(No(14)));
            book.count = 1;
            assert_eq!(finish(&mut book, 0), Ok(0));
            assert_eq!(book.run[3], B | 8191);
        }
    }

    /// The limits, whatever is lent; a refused finish that is mended; and the room used again.
    #[test]
    fn limits() {
        for there in [0, 1, 1023, 1024, 1025] {
            let mut book = book(&vec![B; 1100], 256, there);
            let room = there.min(1024) as u64;
            for position in 0..room {
                assert_eq!(wait(&mut book, at(0, position), 255, 0), Ok(position + 1));
            }
            assert_eq!(wait(&mut book, at(0, room), 255, 0), Err(No(14)));
            if there > 0 {
                assert_eq!(finish(&mut book, 0), Err(No(12)));
            }
            assert_eq!(bind(&mut book, at(0, 1100), 255), Ok(()));
            assert_eq!(finish(&mut book, 0), Ok(0));
            if there > 0 {
                assert_eq!(book.run[0], B | 1100);
                assert_eq!(wait(&mut book, at(0, room), 255, 0), Ok(1));
                assert_eq!(finish(&mut book, 0), Ok(0));
                assert_eq!(book.run[room as usize], B | (1100 - room as u32));
            }
            book.count = room + 1;
            assert_eq!(finish(&mut book, 0), Err(No(14)));
        }
    }
}
