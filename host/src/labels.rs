//! Labels that are bound late: words that reach them are given their distances all at once.

use core::fmt;

use crate::displacements::distance_to;
use crate::error::{refused, Operands};
use crate::{raw, Address, ByteDistance, Error, Format, Place, Refusal, Use, WordPos};

/// A label's number: labels are numbered from 0 on, below [`Labels::LIMIT`].
///
/// ```
/// use vaimalofo::{Label, Labels};
///
/// const EXIT: Label = Label(7);
/// assert!((EXIT.0 as usize) < Labels::LIMIT);
/// ```
#[derive(Clone, Copy, Debug, PartialEq, Eq, PartialOrd, Ord, Hash)]
pub struct Label(pub u32);

/// The labels of a run of words, over a lent table: as many as it has entries, and no more than [`Labels::LIMIT`]. An entry is 0 where
/// the label is unbound, and one more than its position where it is bound.
///
/// A word that reaches a label stands in the run already, an instruction of a [`Format`] with nothing in its field. [`Uses::add`]
/// says that it waits for a label, whether that is bound or not, and [`Uses::finish`] gives all words that wait their distances, or
/// changes nothing. Here a loop is left forward and entered again backward:
///
/// ```
/// use vaimalofo::{Address, Error, Format, Label, Labels, Place, Use, Uses, WordPos};
///
/// const NEXT: Label = Label(0);
/// const EXIT: Label = Label(1);
/// let mut code = [
///     0xB4000001, // next: cbz x1, exit
///     0x8B010000, //       add x0, x0, x1
///     0xD1000421, //       sub x1, x1, #1
///     0x14000000, //       b   next
///     0xD503201F, // exit: nop
/// ];
/// let word = |position| Place { base: Address(0x1000), position: WordPos(position) };
///
/// let (mut table, mut sheet) = ([0; 2], [Use::default(); 2]);
/// let (mut labels, mut uses) = (Labels::new(&mut table), Uses::new(&mut sheet));
/// labels.bind(&code, NEXT, word(0))?;
/// uses.add(&labels, &code, EXIT, word(0), Format::Branch19)?;
/// uses.add(&labels, &code, NEXT, word(3), Format::Branch26)?;
/// labels.bind(&code, EXIT, word(4))?;
/// uses.finish(&labels, &mut code, Address(0x1000))?;
/// assert_eq!(code, [0xB4000081, 0x8B010000, 0xD1000421, 0x17FFFFFD, 0xD503201F]);
/// # Ok::<(), Error>(())
/// ```
#[derive(Debug)]
pub struct Labels<'a> {
    table: &'a mut [usize],
}

impl<'a> Labels<'a> {
    /// How many labels there are at most, however long a table is.
    ///
    /// ```
    /// assert_eq!(vaimalofo::Labels::LIMIT, 256);
    /// ```
    pub const LIMIT: usize = 256;

    /// The labels of a table, all of them unbound: every entry is cleared.
    ///
    /// ```
    /// use vaimalofo::{Label, Labels};
    ///
    /// let mut table = [9; 4];
    /// assert_eq!(Labels::new(&mut table).position(Label(3)), None);
    /// assert_eq!(table, [0; 4]);
    /// ```
    pub fn new(table: &'a mut [usize]) -> Labels<'a> {
        table.fill(0);
        Labels { table }
    }

    /// The labels of a table as it is, bound before or filled by the host.
    ///
    /// ```
    /// use vaimalofo::{Label, Labels, WordPos};
    ///
    /// let mut table = [0, 1 + 5];
    /// assert_eq!(Labels::resume(&mut table).position(Label(1)), Some(WordPos(5)));
    /// ```
    pub fn resume(table: &'a mut [usize]) -> Labels<'a> {
        Labels { table }
    }

    /// Binds a label to a place in a run: to one of its words, or to its end.
    ///
    /// # Errors
    /// [`Error::Unaligned`], [`Error::NoLabel`], [`Error::Twice`], then [`Error::LabelPastEnd`].
    ///
    /// ```
    /// use vaimalofo::{Address, Label, Labels, Place, WordPos};
    ///
    /// let (code, mut table) = ([0; 8], [0; 4]);
    /// let mut labels = Labels::new(&mut table);
    /// let word = |position| Place { base: Address(0x1000), position: WordPos(position) };
    /// labels.bind(&code, Label(3), word(8)).unwrap();
    ///
    /// let mut error = |label, position| {
    ///     labels.bind(&code, Label(label), word(position)).unwrap_err().to_string()
    /// };
    /// assert_eq!(error(4, 0), "label 4 is none of the 4 from 0 on");
    /// assert_eq!(error(3, 0), "label 3 is bound already, at position 8");
    /// assert_eq!(error(2, 9), "label 2 at position 9 is past the end of a run of 8 words");
    /// ```
    #[inline]
    pub fn bind(&mut self, words: &[u32], label: Label, at: Place) -> Result<(), Error> {
        raw::bind_label(self.table, words, at, label.0)
            .map_err(|refusal| self.not_bound(refusal, words, label, at))
    }

    /// Where a label is bound. Nothing for one that is not, and for a number that is none's.
    ///
    /// ```
    /// use vaimalofo::{Address, Label, Labels, Place, WordPos};
    ///
    /// let mut table = [0; 4];
    /// let mut labels = Labels::new(&mut table);
    /// labels.bind(&[], Label(3), Place::at(Address(0)))?;
    /// assert_eq!(labels.position(Label(3)), Some(WordPos(0)));
    /// assert_eq!(labels.position(Label(2)), None);
    /// assert_eq!(labels.position(Label(4)), None);
    /// # Ok::<(), vaimalofo::Error>(())
    /// ```
    pub fn position(&self, label: Label) -> Option<WordPos> {
        if !self.has(label) {
            return None;
        }
        self.table[label.0 as usize].checked_sub(1).map(WordPos)
    }

    /// How many labels there are.
    fn count(&self) -> usize {
        self.table.len().min(Self::LIMIT)
    }

    /// Whether there is a label of this number.
    fn has(&self, label: Label) -> bool {
        (label.0 as usize) < self.count()
    }

    #[cold]
    fn not_bound(&self, refusal: Refusal, words: &[u32], label: Label, at: Place) -> Error {
        match refusal {
            Refusal::Unaligned => Error::Unaligned { base: at.base },
            Refusal::Label => Error::NoLabel { label, labels: self.count() },
            Refusal::Twice => {
                let position = self.position(label).expect("a label that is bound");
                Error::Twice { label, position }
            }
            Refusal::NoRoom => {
                Error::LabelPastEnd { label, position: at.position, words: words.len() }
            }
            _ => unreachable!("binding is not refused by {refusal}"),
        }
    }
}

/// The uses of labels that wait, in a lent sheet: as many as it has records, and no more than [`Uses::LIMIT`]. There is an example at
/// [`Labels`].
#[derive(Debug)]
pub struct Uses<'a> {
    sheet: &'a mut [Use],
    count: usize,
}

impl<'a> Uses<'a> {
    /// How many uses wait at most, however long a sheet is.
    ///
    /// ```
    /// assert_eq!(vaimalofo::Uses::LIMIT, 1024);
    /// ```
    pub const LIMIT: usize = 1024;

    /// An empty sheet: what the records hold does not matter.
    ///
    /// ```
    /// use vaimalofo::{Use, Uses};
    ///
    /// assert!(Uses::new(&mut [Use::default(); 16]).is_empty());
    /// ```
    pub fn new(sheet: &'a mut [Use]) -> Uses<'a> {
        Uses { sheet, count: 0 }
    }

    /// A sheet whose first `count` records wait, added before or written by the host.
    ///
    /// # Errors
    /// [`Error::Full`] for a count above the sheet's length or [`Uses::LIMIT`].
    ///
    /// ```
    /// use vaimalofo::{Error, Format, Use, Uses};
    ///
    /// let branch = Use { label: 3, at: 5, format: Format::Branch26.number() };
    /// let mut sheet = [branch, Use::default()];
    /// assert_eq!(Uses::resume(&mut sheet, 1)?.pending(), [branch]);
    /// assert_eq!(Uses::resume(&mut sheet, 3).unwrap_err(), Error::Full { uses: 3, room: 2 });
    /// # Ok::<(), Error>(())
    /// ```
    pub fn resume(sheet: &'a mut [Use], count: usize) -> Result<Uses<'a>, Error> {
        let room = sheet.len().min(Self::LIMIT);
        if count > room {
            return Err(Error::Full { uses: count, room });
        }
        Ok(Uses { sheet, count })
    }

    /// How many uses wait.
    ///
    /// ```
    /// use vaimalofo::{Use, Uses};
    ///
    /// assert_eq!(Uses::resume(&mut [Use::default(); 16], 3)?.len(), 3);
    /// # Ok::<(), vaimalofo::Error>(())
    /// ```
    pub fn len(&self) -> usize {
        self.count
    }

    /// Whether none waits.
    ///
    /// ```
    /// use vaimalofo::{Use, Uses};
    ///
    /// assert!(!Uses::resume(&mut [Use::default(); 16], 3)?.is_empty());
    /// # Ok::<(), vaimalofo::Error>(())
    /// ```
    pub fn is_empty(&self) -> bool {
        self.count == 0
    }

    /// The uses that wait, in the order in which they were added.
    ///
    /// ```
    /// use vaimalofo::{Address, Format, Label, Labels, Place, Use, Uses};
    ///
    /// let (mut table, mut sheet) = ([0; 4], [Use::default(); 4]);
    /// let (labels, mut uses) = (Labels::new(&mut table), Uses::new(&mut sheet));
    /// uses.add(&labels, &[0x14000000], Label(3), Place::at(Address(0)), Format::Branch26)?;
    /// assert_eq!(uses.pending(), [Use { label: 3, at: 0, format: 0 }]);
    /// # Ok::<(), vaimalofo::Error>(())
    /// ```
    pub fn pending(&self) -> &[Use] {
        &self.sheet[..self.count]
    }

    /// The word at a place waits for a label, which may be bound later. The word is an instruction of the format with nothing in its
    /// field, and no other use waits for it. The answer is how many wait now.
    ///
    /// # Errors
    /// [`Error::Unaligned`], [`Error::NoLabel`], [`Error::NoRoom`] where no word stands at the place, [`Error::WrongForm`],
    /// [`Error::Taken`], [`Error::Again`], then [`Error::Full`].
    ///
    /// ```
    /// use vaimalofo::{Address, Format, Label, Labels, Place, Use, Uses, WordPos};
    ///
    /// let code = [0xB4000003, 0xB4000023, 0xD503201F, 0x14000000];
    /// let (mut table, mut sheet) = ([0; 4], [Use::default(); 1]);
    /// let (labels, mut uses) = (Labels::new(&mut table), Uses::new(&mut sheet));
    /// let mut add = |label, position, format| {
    ///     let at = Place { base: Address(0x1000), position: WordPos(position) };
    ///     uses.add(&labels, &code, Label(label), at, format).map_err(|error| error.to_string())
    /// };
    /// let error = |text: &str| Err(text.to_string());
    /// assert_eq!(add(3, 0, Format::Branch19), Ok(1));
    /// assert_eq!(add(4, 0, Format::Branch19), error("label 4 is none of the 4 from 0 on"));
    /// assert_eq!(add(3, 4, Format::Branch19), error("no room at position 4 of a run of 4 words"));
    /// assert_eq!(add(3, 2, Format::Branch26), error("word 0xd503201f is no B or BL"));
    /// assert_eq!(
    ///     add(3, 1, Format::Branch19),
    ///     error("word 0xb4000023 has bits set in the field of B.cond, CBZ and CBNZ")
    /// );
    /// assert_eq!(add(2, 0, Format::Branch19), error("the word at position 0 waits for label 3 already"));
    /// assert_eq!(add(3, 3, Format::Branch26), error("the sheet has room for 1 use, and 2 were to wait"));
    /// ```
    #[inline]
    pub fn add(
        &mut self,
        labels: &Labels<'_>,
        words: &[u32],
        label: Label,
        at: Place,
        format: Format,
    ) -> Result<usize, Error> {
        let number = format.number();
        match raw::use_label(self.sheet, self.count, labels.table, words, at, label.0, number) {
            Ok(count) => {
                self.count = count;
                Ok(count)
            }
            Err(refusal) => Err(self.not_added(refusal, labels, words, label, at, format)),
        }
    }

    /// Gives every word that waits its distance, in a run whose first word has this address. Then none waits, and the labels stay
    /// bound. With an error no word has changed, and all wait as before.
    ///
    /// # Errors
    /// [`Error::Unaligned`]; then that of the first use that has one, in their order, with its index: [`Error::NoLabel`],
    /// [`Error::Unbound`], [`Error::NoRoom`], [`Error::LabelPastEnd`], [`Error::WrongForm`], [`Error::Taken`], [`Error::Again`],
    /// [`Error::Step`], [`Error::Range`]. A record that the host wrote may have a number that is no format's, before all of these:
    /// [`Error::NoFormat`].
    ///
    /// ```
    /// use vaimalofo::{Address, Format, Label, Labels, Place, Use, Uses, WordPos};
    ///
    /// let base = Address(0x1000);
    /// let (mut code, start) = ([0x14000000, 0xD503201F], Place::at(base));
    /// let (mut table, mut sheet) = ([0; 4], [Use::default(); 4]);
    /// let (mut labels, mut uses) = (Labels::new(&mut table), Uses::new(&mut sheet));
    /// uses.add(&labels, &code, Label(3), start, Format::Branch26)?;
    /// let error = uses.finish(&labels, &mut code, base).unwrap_err();
    /// assert_eq!(error.to_string(), "use 0: label 3 is not bound");
    ///
    /// labels.bind(&code, Label(3), Place { position: WordPos(2), ..start })?;
    /// uses.finish(&labels, &mut code, base)?;
    /// assert_eq!(code, [0x14000002, 0xD503201F]);
    /// assert!(uses.is_empty());
    /// # Ok::<(), vaimalofo::Error>(())
    /// ```
    pub fn finish(
        &mut self,
        labels: &Labels<'_>,
        words: &mut [u32],
        base: Address,
    ) -> Result<(), Unfinished> {
        match raw::finish_labels(self.sheet, self.count, labels.table, words, base) {
            Ok(count) => {
                self.count = count;
                Ok(())
            }
            Err(refusal) => Err(self.not_finished(refusal, labels, words, base)),
        }
    }

    #[cold]
    fn not_added(
        &self,
        refusal: Refusal,
        labels: &Labels<'_>,
        words: &[u32],
        label: Label,
        at: Place,
        format: Format,
    ) -> Error {
        let room = self.sheet.len().min(Self::LIMIT);
        let asked = Use { label: label.0, at: at.position.0, format: format.number() };
        match refusal {
            Refusal::Unaligned => Error::Unaligned { base: at.base },
            Refusal::Full => Error::Full { uses: self.count + 1, room },
            _ => refused_use(refusal, labels, words, at.base, self.pending(), asked)
                .unwrap_or_else(|| unreachable!("{refusal} to a use that passes this test")),
        }
    }

    /// The uses before the one that was refused pass every test, so it is the first that fails the refusal's.
    #[cold]
    fn not_finished(
        &self,
        refusal: Refusal,
        labels: &Labels<'_>,
        words: &[u32],
        base: Address,
    ) -> Unfinished {
        if refusal == Refusal::Unaligned {
            return Unfinished { index: None, error: Error::Unaligned { base } };
        }
        let uses = self.pending();
        let first = uses.iter().enumerate().find_map(|(index, asked)| {
            let error = refused_use(refusal, labels, words, base, &uses[..index], *asked)?;
            Some(Unfinished { index: Some(index), error })
        });
        first.unwrap_or_else(|| unreachable!("{refusal} to uses that pass this test"))
    }
}

/// The error of a refusal of one use, behind the earlier ones that wait; nothing where the use passes the test that the refusal is of.
fn refused_use(
    refusal: Refusal,
    labels: &Labels<'_>,
    words: &[u32],
    base: Address,
    earlier: &[Use],
    asked: Use,
) -> Option<Error> {
    let (label, position) = (Label(asked.label), WordPos(asked.at));
    let Some(format) = Format::from_number(asked.format) else {
        return Some(Error::NoFormat { format: asked.format });
    };
    let bound = labels.position(label);
    match refusal {
        Refusal::Label if !labels.has(label) => {
            Some(Error::NoLabel { label, labels: labels.count() })
        }
        Refusal::Label => bound.is_none().then_some(Error::Unbound { label }),
        Refusal::NoRoom if position.0 >= words.len() => {
            Some(Error::NoRoom { position, words: words.len() })
        }
        Refusal::NoRoom => {
            let position = bound.filter(|bound| bound.0 > words.len())?;
            Some(Error::LabelPastEnd { label, position, words: words.len() })
        }
        Refusal::Again => {
            let same = earlier.iter().find(|one| one.at == asked.at)?;
            Some(Error::Again { position, label: Label(same.label) })
        }
        _ => {
            let word = *words.get(position.0)?;
            // A word that is no base of its format is none at any distance, and a label that is not bound is at none.
            let distance = bound.map_or(ByteDistance(0), |bound| {
                let target = Place { base, position: bound };
                distance_to(format, Place { base, position }, target.address())
            });
            let answer =
                raw::displacement(&mut [0; 4], Place::at(base), asked.format, word, distance.0);
            let operands = Operands::Displacement(format, word, distance);
            (answer == Err(refusal)).then(|| refused(refusal, operands))
        }
    }
}

/// Why [`Uses::finish`] changed nothing, and which use it was about.
///
/// It prints both, and `?` makes an [`Error`] of it:
///
/// ```
/// use vaimalofo::{Address, Error, Labels, Place, Unfinished, Use, Uses};
///
/// // TBZ to the end of a run that is too long for it.
/// let (mut code, mut table) = (vec![0x36000000; 9000], [1 + 9000]);
/// let mut sheet = [Use { label: 0, at: 8999, format: 2 }, Use { label: 0, at: 0, format: 2 }];
/// let mut finish = |base| {
///     Uses::resume(&mut sheet, 2).unwrap().finish(&Labels::resume(&mut table), &mut code, base)
/// };
/// let error = finish(Address(0)).unwrap_err();
/// assert_eq!(error.index, Some(1));
/// assert_eq!(
///     error.to_string(),
///     "use 1: distance 36000 is outside -32768..=32764 of TBZ and TBNZ"
/// );
/// assert_eq!(Error::from(error).number(), 5);
/// let unaligned = Error::Unaligned { base: Address(2) };
/// assert_eq!(finish(Address(2)), Err(Unfinished { index: None, error: unaligned }));
/// ```
#[derive(Clone, Copy, Debug, PartialEq, Eq, Hash)]
pub struct Unfinished {
    /// The index of the use among those that wait ([`Uses::pending`]); none where it is about none of them.
    pub index: Option<usize>,
    /// What is wrong.
    pub error: Error,
}

impl fmt::Display for Unfinished {
    fn fmt(&self, f: &mut fmt::Formatter<'_>) -> fmt::Result {
        match self.index {
            Some(index) => write!(f, "use {index}: {}", self.error),
            None => self.error.fmt(f),
        }
    }
}

impl core::error::Error for Unfinished {}

impl From<Unfinished> for Error {
    fn from(unfinished: Unfinished) -> Error {
        unfinished.error
    }
}
