//! The Rate Book for Rust: dated supplier offers by dialling code, and the price of a call.
//!
//! A thin, safe wrapper over the proved library. You lend all memory as slices; the library has no heap, files, threads or clock
//! and keeps nothing between calls. Bad input is answered by a [`Refusal`], and a refused call leaves all lent memory as it was.
//! `include/rate_book.h` gives the layout of books, notices, batches and cells; [`Kind`] and [`LineStatus`] name a notice's numbers.
//!
//! ```
//! use rate_book::{Day, Moment, Offer};
//!
//! // A book with a notice period of 7 days, and one for the first notice to be applied into.
//! let mut fresh = vec![0; rate_book::words(100)];
//! let mut book = fresh.clone();
//! rate_book::fresh(&mut fresh, 7)?;
//!
//! // An update received on day 100 that prices code 23480 at 0.09 a minute, increments 1/1.
//! let notice = [3, 100, 1, 5, 0xB8, 0xB7, 0x01, 2, 2, 9, 1, 1, 0];
//! let applied = rate_book::apply(&fresh, &notice, &mut book)?;
//! assert_eq!(applied.entries, 1);
//!
//! let answer = rate_book::lookup(&book, b"234801234567", Day(100))?;
//! assert_eq!(answer.offer, Offer::Open { rate: 9_000_000, first: 1, next: 1 });
//! assert_eq!(answer.key.map(|key| key.to_string()).as_deref(), Some("23480"));
//!
//! // Two minutes, from the first moment of day 100.
//! let call = rate_book::rate_call(&book, b"234801234567", Moment(100 * 86_400), 120)?;
//! assert_eq!(call.charge, 18_000_000);
//! # Ok::<(), rate_book::Refusal>(())
//! ```
//!
//! # Linking
//!
//! The build script links `librate_book.a` from where `tools/archive` writes it, or from the folder that the environment
//! variable `RATE_BOOK_LIB_DIR` names. The archive is for x86-64 Linux. It needs `memset`, which every C runtime and Rust's
//! compiler-builtins have, and nothing else.
#![deny(missing_docs, unsafe_code)]

#[allow(unsafe_code)]
mod ffi;
mod refusal;

pub use refusal::Refusal;
use std::fmt;

/// The words of a book before its entries: those named by [`WORD_ENTRIES`], [`WORD_PERIOD`], [`WORD_LAST_RECEIVED`] and
/// [`WORD_LATEST_EFFECTIVE`].
pub const HEADER_WORDS: usize = 4;
/// The word of a book that holds the number of its entries.
pub const WORD_ENTRIES: usize = 0;
/// The word of a book that holds its notice period, in days.
pub const WORD_PERIOD: usize = 1;
/// The word of a book that holds the received day of the last accepted notice.
pub const WORD_LAST_RECEIVED: usize = 2;
/// The word of a book that holds the latest effective day of any line accepted so far.
pub const WORD_LATEST_EFFECTIVE: usize = 3;
/// The words of an entry.
pub const ENTRY_WORDS: usize = 3;
/// The most entries of a book.
pub const MOST_ENTRIES: usize = 65_535;
/// The most lines of a notice.
pub const MOST_LINES: usize = 65_535;
/// The most calls of a batch.
pub const MOST_CALLS: usize = 65_535;
/// The most codes of a range in a cell, and so the most keys of one entry.
pub const MOST_CODES: usize = 1_000;
/// The words of a call in a batch's rows.
pub const ROW_WORDS: usize = 4;
/// The most bytes of a standing list before its lines.
pub const LONGEST_LIST_HEAD: usize = 7;
/// The most bytes of a line of a standing list. It has no more lines than the book has entries.
pub const LONGEST_LIST_LINE: usize = 21;
/// The longest duration of a call, in seconds.
pub const LONGEST_DURATION: u64 = 604_800;
/// The longest notice period, in days.
pub const LONGEST_PERIOD: u64 = 365;
/// The dearest open rate, in hundred-millionths of the contract currency a minute.
pub const DEAREST_RATE: u64 = 999_000_000;
/// The most digits of a code, and of a number.
pub const LONGEST_CODE: usize = 15;
/// The most decimals of a line's rate.
pub const MOST_DECIMALS: u64 = 12;
/// The largest mantissa of a line's rate.
pub const LARGEST_MANTISSA: u64 = 10_000_000_000;
/// The longest increment, in seconds.
pub const LONGEST_INCREMENT: u64 = 255;

/// The kind of a notice, its first field: `Kind::Update as u64` is 3.
#[derive(Clone, Copy, Debug, PartialEq, Eq, Hash)]
pub enum Kind {
    /// Closes every code that it does not list.
    Full = 1,
    /// Closes the unlisted codes of the countries of its lines.
    Partial = 2,
    /// Closes none.
    Update = 3,
    /// Closes the unlisted codes of the country that it names.
    Replacement = 4,
}

/// The status of a notice's line, the field after its code: `LineStatus::Rate as u64` is 2.
#[derive(Clone, Copy, Debug, PartialEq, Eq, Hash)]
pub enum LineStatus {
    /// Closes the code.
    Delete = 0,
    /// Blocks the code.
    Block = 1,
    /// Gives the code a rate and increments.
    Rate = 2,
}

/// A day, counted from 0 in the supplier's contract time zone.
///
/// ```
/// assert!(rate_book::Day(60_000) < rate_book::Day::LAST);
/// ```
///
/// A day is not taken for a moment:
///
/// ```compile_fail
/// rate_book::rate_call(&[0; 4], b"44", rate_book::Day(100), 60).ok();
/// ```
#[derive(Clone, Copy, Debug, PartialEq, Eq, PartialOrd, Ord, Hash)]
pub struct Day(pub u64);

impl Day {
    /// The last day.
    pub const LAST: Day = Day(65_000);
    /// The last day on which a notice can be received, and the last of a standing list.
    pub const LAST_RECEIVED: Day = Day(60_000);
    /// The seconds of a day.
    pub const SECONDS: u64 = 86_400;
}

/// A moment, counted in seconds from the beginning of day 0.
///
/// ```
/// use rate_book::{Day, Moment};
///
/// assert_eq!(Moment(86_399).day(), Day(0));
/// assert_eq!(Moment(86_400).day(), Day(1));
/// ```
///
/// A moment is not taken for a day:
///
/// ```compile_fail
/// rate_book::lookup(&[0; 4], b"44", rate_book::Moment(100)).ok();
/// ```
#[derive(Clone, Copy, Debug, PartialEq, Eq, PartialOrd, Ord, Hash)]
pub struct Moment(pub u64);

impl Moment {
    /// The end of moments: the first that is out of range.
    pub const END: Moment = Moment(5_616_086_400);

    /// The day of the moment.
    #[must_use]
    pub const fn day(self) -> Day {
        Day(self.0 / Day::SECONDS)
    }
}

/// The key of a code. It is shown as the code's digits.
///
/// ```
/// assert_eq!(rate_book::Key(759_499_667_166_482).to_string(), "1");
/// ```
#[derive(Clone, Copy, Debug, PartialEq, Eq, PartialOrd, Ord, Hash)]
pub struct Key(pub u64);

/// The digits up to the first place that holds none; nothing for a word that is no key.
impl fmt::Display for Key {
    fn fmt(&self, f: &mut fmt::Formatter<'_>) -> fmt::Result {
        const PLACES: u32 = 15;
        if self.0 >= 11u64.pow(PLACES) {
            return Ok(());
        }
        for place in (0..PLACES).rev() {
            match self.0 / 11u64.pow(place) % 11 {
                0 => break,
                held => write!(f, "{}", held - 1)?,
            }
        }
        Ok(())
    }
}

/// The book that an apply left.
#[derive(Clone, Copy, Debug, PartialEq, Eq, Hash)]
pub struct Applied {
    /// The entries of the new book.
    pub entries: u64,
    /// The received day of the last accepted notice: this one.
    pub last_received: Day,
    /// The latest effective day of any line accepted so far.
    pub latest_effective: Day,
}

/// An offer for a number on a day.
#[must_use]
#[derive(Clone, Copy, Debug, PartialEq, Eq, Hash)]
pub enum Offer {
    /// There is none.
    Closed,
    /// The supplier takes no calls.
    Blocked,
    /// The supplier takes calls.
    Open {
        /// Hundred-millionths of the contract currency a minute.
        rate: u64,
        /// The first increment, in seconds.
        first: u64,
        /// The next increment, in seconds.
        next: u64,
    },
}

/// The answer to a number.
#[must_use]
#[derive(Clone, Copy, Debug, PartialEq, Eq, Hash)]
pub struct Answer {
    /// The key of the number's longest beginning that is open or blocked; none with [`Offer::Closed`].
    pub key: Option<Key>,
    /// The offer of that code.
    pub offer: Offer,
}

/// A rated call.
#[must_use]
#[derive(Clone, Copy, Debug, PartialEq, Eq, Hash)]
pub struct Call {
    /// The key of the code that priced the call.
    pub key: Key,
    /// The seconds charged.
    pub charged_seconds: u64,
    /// The charge, in hundred-millionths of the contract currency.
    pub charge: u64,
}

/// A rated batch. It has `rated + refused` calls, which [`read_rows`] reads.
#[must_use]
#[derive(Clone, Copy, Debug, PartialEq, Eq, Hash)]
pub struct Batch {
    /// The calls rated.
    pub rated: u64,
    /// The calls refused in their rows.
    pub refused: u64,
    /// The sum of the charges, in hundred-millionths of the contract currency.
    pub total: u64,
}

/// The first entry of a cell, read.
///
/// The rest is part of the cell, and so does not outlive it:
///
/// ```compile_fail
/// let mut keys = [0; 1];
/// let read = {
///     let cell = b"44, 46".to_vec();
///     rate_book::cell_entry(b"", &cell, &mut keys)
/// };
/// assert!(read.is_ok());
/// ```
#[must_use]
#[derive(Clone, Copy, Debug, PartialEq, Eq, Hash)]
pub struct CellEntry<'a> {
    /// The keys written.
    pub count: usize,
    /// The part of the cell still to be read: from the entry's comma on, or nothing at the cell's end.
    pub rest: &'a [u8],
}

fn refused_by(number: u64, key: u64) -> Result<(), Refusal> {
    match number {
        0 => Ok(()),
        _ => Err(Refusal::of(number, key)),
    }
}

/// The words to lend for a book of so many entries; above [`MOST_ENTRIES`], the words for that many.
///
/// ```
/// assert_eq!(rate_book::words(100), 304);
/// ```
#[must_use]
pub fn words(entries: usize) -> usize {
    ffi::words(entries as u64) as usize
}

/// Makes a fresh book with a notice period of 0 to 365 days, in every word of the slice.
///
/// Refused, in this order, by [`Refusal::PeriodTooLong`] and [`Refusal::BookTooShort`].
///
/// ```
/// let mut book = [9; 7];
/// rate_book::fresh(&mut book, 7)?;
/// assert_eq!(book, [0, 7, 0, 0, 0, 0, 0]);
/// assert_eq!(rate_book::fresh(&mut book, 366), Err(rate_book::Refusal::PeriodTooLong));
/// # Ok::<(), rate_book::Refusal>(())
/// ```
pub fn fresh(book: &mut [u64], notice_period: u64) -> Result<(), Refusal> {
    refused_by(ffi::fresh(book, notice_period), 0)
}

/// Applies a notice to an old book and writes the book after it into every word of the new one, which may be longer or shorter.
/// After a refusal the old book stays the current one.
///
/// Refused, in this order, by [`Refusal::BookTooShort`] and [`Refusal::BookNotSound`] for the old book,
/// [`Refusal::BookTooShort`] for the new one, the refusals 1 to 8 of the notice's fields, [`Refusal::BytesLeft`],
/// [`Refusal::ReceivedEarlier`] and [`Refusal::BookFull`].
///
/// ```
/// use rate_book::{Day, Refusal};
///
/// let mut old = [0; 7];
/// let mut new = [0; 7];
/// rate_book::fresh(&mut old, 7)?;
///
/// let notice = [3, 100, 1, 5, 0xB8, 0xB7, 0x01, 2, 2, 9, 1, 1, 0];
/// let applied = rate_book::apply(&old, &notice, &mut new)?;
/// assert_eq!((applied.entries, applied.last_received), (1, Day(100)));
///
/// // An update received a day earlier comes too late.
/// let late = [3, 99, 1, 5, 0xB8, 0xB7, 0x01, 2, 2, 8, 1, 1, 0];
/// assert_eq!(rate_book::apply(&new, &late, &mut old), Err(Refusal::ReceivedEarlier));
/// # Ok::<(), Refusal>(())
/// ```
pub fn apply(old: &[u64], notice: &[u8], new: &mut [u64]) -> Result<Applied, Refusal> {
    let applied = ffi::apply(old, notice, new);
    refused_by(applied.refusal, 0)?;
    Ok(Applied {
        entries: applied.entries,
        last_received: Day(applied.last_received),
        latest_effective: Day(applied.latest_effective),
    })
}

/// What a number, in ASCII digits, costs on a day. A closed or blocked offer is an answer, not a refusal. Each lookup tests the
/// whole book.
///
/// Refused, in this order, by [`Refusal::BookTooShort`], [`Refusal::BookNotSound`], [`Refusal::NotANumber`] and
/// [`Refusal::TimeOutOfRange`].
///
/// ```
/// use rate_book::{Answer, Day, Offer, Refusal};
///
/// let mut book = [0; 4];
/// rate_book::fresh(&mut book, 7)?;
/// let nothing = Answer { key: None, offer: Offer::Closed };
/// assert_eq!(rate_book::lookup(&book, b"234806121212", Day(100)), Ok(nothing));
/// assert_eq!(rate_book::lookup(&book, b"+234806121212", Day(100)), Err(Refusal::NotANumber));
/// # Ok::<(), Refusal>(())
/// ```
pub fn lookup(book: &[u64], number: &[u8], day: Day) -> Result<Answer, Refusal> {
    let found = ffi::lookup(book, number, day.0);
    refused_by(found.refusal, 0)?;
    Ok(Answer {
        key: Some(Key(found.key)).filter(|key| key.0 != 0),
        offer: match found.status {
            0 => Offer::Closed,
            1 => Offer::Blocked,
            _ => Offer::Open {
                rate: found.rate,
                first: found.first,
                next: found.next,
            },
        },
    })
}

/// Rates one call to a number, in ASCII digits, by its first moment and its duration of 0 to 604,800 seconds. The start day
/// prices all of it; a duration of 0 is charged 0 but needs an offer. Each call tests the whole book; [`rate_batch`] tests it once.
///
/// Refused, in this order, by [`Refusal::BookTooShort`], [`Refusal::BookNotSound`], [`Refusal::NotANumber`],
/// [`Refusal::TimeOutOfRange`], [`Refusal::DurationTooLong`], [`Refusal::NoOffer`] and [`Refusal::OfferBlocked`].
///
/// ```
/// use rate_book::{Moment, Refusal};
///
/// // An update received on day 10 with no notice period: 44 at 0.13 a minute, increments 30/6, and 4470 blocked.
/// let mut fresh = [0; 10];
/// let mut book = [0; 10];
/// rate_book::fresh(&mut fresh, 0)?;
/// let notice = [3, 10, 2, 2, 44, 2, 2, 13, 30, 6, 0, 4, 0xF6, 0x22, 1, 0];
/// rate_book::apply(&fresh, &notice, &mut book)?;
///
/// let start = Moment(10 * 86_400);
/// let call = rate_book::rate_call(&book, b"442079460958", start, 31)?;
/// assert_eq!((call.charged_seconds, call.charge), (36, 7_800_000));
///
/// match rate_book::rate_call(&book, b"447001234567", start, 31) {
///     Err(Refusal::OfferBlocked(key)) => assert_eq!(key.to_string(), "4470"),
///     other => panic!("{other:?}"),
/// }
/// # Ok::<(), Refusal>(())
/// ```
pub fn rate_call(
    book: &[u64],
    number: &[u8],
    start: Moment,
    duration: u64,
) -> Result<Call, Refusal> {
    let call = ffi::rate_call(book, number, start.0, duration);
    read_row([call.refusal, call.key, call.charged_seconds, call.charge])
}

/// Rates a batch of calls. Each fills four words of the rows, in the batch's order from the first word on, which [`read_rows`]
/// reads; later words are untouched. A call that is refused fills its row and does not stop the batch.
///
/// Refused, in this order, by [`Refusal::BookTooShort`], [`Refusal::BookNotSound`], the refusals of the batch's fields
/// ([`Refusal::BytesEnd`], [`Refusal::NotShortest`], [`Refusal::OutOfRange`] for the number of calls), [`Refusal::BytesLeft`] and
/// [`Refusal::BufferTooShort`].
///
/// ```
/// use rate_book::{Batch, Refusal, ROW_WORDS};
///
/// let mut fresh = [0; 7];
/// let mut book = [0; 7];
/// rate_book::fresh(&mut fresh, 7)?;
/// rate_book::apply(&fresh, &[3, 100, 1, 5, 0xB8, 0xB7, 0x01, 2, 2, 9, 1, 1, 0], &mut book)?;
///
/// let batch = [
///     2, // calls
///     5, 0xB8, 0xB7, 0x01, // 23480
///     0x80, 0xAC, 0x8F, 0x04, // moment 8,640,000, the first of day 100
///     61, // seconds
///     2, 91, 0x80, 0xAC, 0x8F, 0x04, 61, // the same to 91
/// ];
/// let mut rows = [0; 2 * ROW_WORDS];
/// let rated = rate_book::rate_batch(&book, &batch, &mut rows)?;
/// assert_eq!(rated, Batch { rated: 1, refused: 1, total: 9_150_000 });
///
/// let mut calls = rate_book::read_rows(&rated, &rows);
/// assert_eq!(calls.next().unwrap()?.charge, 9_150_000);
/// assert_eq!(calls.next(), Some(Err(Refusal::NoOffer)));
/// assert_eq!(calls.next(), None);
/// # Ok::<(), Refusal>(())
/// ```
pub fn rate_batch(book: &[u64], batch: &[u8], rows: &mut [u64]) -> Result<Batch, Refusal> {
    let rated = ffi::rate_batch(book, batch, rows);
    refused_by(rated.refusal, 0)?;
    Ok(Batch {
        rated: rated.rated,
        refused: rated.refused,
        total: rated.total,
    })
}

fn read_row([refusal, key, charged_seconds, charge]: [u64; ROW_WORDS]) -> Result<Call, Refusal> {
    refused_by(refusal, key)?;
    Ok(Call {
        key: Key(key),
        charged_seconds,
        charge,
    })
}

/// Reads the rows that [`rate_batch`] filled for a batch, each as [`rate_call`] answers for its call alone. There are as many as the
/// batch has calls, though the rows were lent for more.
///
/// ```
/// use rate_book::{Refusal, ROW_WORDS};
///
/// let mut book = [0; 4];
/// rate_book::fresh(&mut book, 7)?;
/// let mut rows = [0; 100 * ROW_WORDS];
/// // One call, to 91 at moment 0, for 60 seconds.
/// let rated = rate_book::rate_batch(&book, &[1, 2, 91, 0, 60], &mut rows)?;
/// let calls: Vec<_> = rate_book::read_rows(&rated, &rows).collect();
/// assert_eq!(calls, [Err(Refusal::NoOffer)]);
/// # Ok::<(), Refusal>(())
/// ```
pub fn read_rows<'a>(
    batch: &Batch,
    rows: &'a [u64],
) -> impl ExactSizeIterator<Item = Result<Call, Refusal>> + 'a {
    // A batch has at most MOST_CALLS calls.
    let calls = batch.rated.saturating_add(batch.refused) as usize;
    rows.chunks_exact(ROW_WORDS)
        .take(calls)
        .map(|row| read_row([row[0], row[1], row[2], row[3]]))
}

/// Writes the standing list of a day, at most [`Day::LAST_RECEIVED`], and gives its length in bytes: a full notice received that
/// day with each open or blocked code. Later bytes are untouched. It takes at most [`LONGEST_LIST_HEAD`] bytes and
/// [`LONGEST_LIST_LINE`] for each of the book's entries.
///
/// Refused, in this order, by [`Refusal::BookTooShort`], [`Refusal::BookNotSound`], [`Refusal::TimeOutOfRange`],
/// [`Refusal::NoOffer`] where nothing stands, and [`Refusal::BufferTooShort`].
///
/// ```
/// use rate_book::{Day, Refusal};
///
/// let mut fresh = [0; 7];
/// let mut book = [0; 7];
/// rate_book::fresh(&mut fresh, 7)?;
/// rate_book::apply(&fresh, &[3, 100, 1, 2, 91, 2, 8, 5, 1, 1, 0], &mut book)?;
///
/// let mut bytes = [0; 64];
/// let length = rate_book::list(&book, Day(101), &mut bytes)?;
/// assert_eq!(bytes[..length], [1, 101, 1, 2, 91, 2, 8, 5, 1, 1, 0]);
/// assert_eq!(rate_book::list(&book, Day(99), &mut bytes), Err(Refusal::NoOffer));
/// # Ok::<(), Refusal>(())
/// ```
///
/// # Loading a list
///
/// The notice period, earlier days and pending changes are not in a list: to keep a book, store its words. Load a list only into a
/// fresh book of notice period 0. With a notice period N its blocks, which are increases, wait N days, and until then a blocked code
/// is open where a shorter code is. What the list's day gave then holds for all days from it on, also where a close or another price
/// was pending. The word [`WORD_PERIOD`] of the book left may then be set to the contract's notice period, 0 to [`LONGEST_PERIOD`],
/// for the notices to come.
///
/// ```
/// use rate_book::{Day, Offer, Refusal, WORD_PERIOD};
///
/// // A list of day 20: 44 at 0.05 a minute, 4470 blocked.
/// let list = [1, 20, 2, 2, 44, 2, 2, 5, 1, 1, 0, 4, 0xF6, 0x22, 1, 0];
/// let mut fresh = [0; 10];
/// let mut book = [0; 10];
///
/// // With a notice period of 7 days the block waits for day 27.
/// rate_book::fresh(&mut fresh, 7)?;
/// rate_book::apply(&fresh, &list, &mut book)?;
/// assert_ne!(rate_book::lookup(&book, b"4470", Day(26))?.offer, Offer::Blocked);
///
/// rate_book::fresh(&mut fresh, 0)?;
/// rate_book::apply(&fresh, &list, &mut book)?;
/// book[WORD_PERIOD] = 7;
/// assert_eq!(rate_book::lookup(&book, b"4470", Day(20))?.offer, Offer::Blocked);
/// # Ok::<(), Refusal>(())
/// ```
pub fn list(book: &[u64], day: Day, out: &mut [u8]) -> Result<usize, Refusal> {
    let listed = ffi::list(book, day.0, out);
    refused_by(listed.refusal, 0)?;
    Ok(listed.length as usize)
}

/// Writes the keys of the codes that a cell names, as a supplier types it, rising and each once, and gives their number. Later words
/// are untouched. The digits of the country cell go before every code; a cell that is empty or all blanks then means the country's
/// own code. An empty country cell is the same as none. An entry has at most [`MOST_CODES`] keys.
///
/// The first entry that has a cause decides, within it in this order: [`Refusal::EntryNotAllowed`], [`Refusal::RangeNotAllowed`],
/// [`Refusal::KeysTooMany`].
///
/// ```
/// use rate_book::{Key, Refusal};
///
/// let mut keys = [0; 3];
/// let count = rate_book::cell(b"213", b"61, 7-8", &mut keys)?;
/// let codes: Vec<_> = keys[..count].iter().map(|&key| Key(key).to_string()).collect();
/// assert_eq!(codes, ["21361", "2137", "2138"]);
///
/// assert_eq!(rate_book::cell(b"", b"21361, 2137-2138", &mut keys), Ok(3));
/// assert_eq!(rate_book::cell(b"355", b"", &mut keys), Ok(1));
/// assert_eq!(rate_book::cell(b"213", b"7-9, 61", &mut keys), Err(Refusal::KeysTooMany));
/// # Ok::<(), Refusal>(())
/// ```
pub fn cell(country: &[u8], cell: &[u8], keys: &mut [u64]) -> Result<usize, Refusal> {
    let read = ffi::cell(country, cell, keys);
    refused_by(read.refusal, 0)?;
    Ok(read.count as usize)
}

/// The same for the first entry of a cell alone, up to its comma or the cell's end, with the part of the cell still to be read. An
/// empty entry is refused, also beside a country cell.
///
/// Refused, in this order, by [`Refusal::EntryNotAllowed`], [`Refusal::RangeNotAllowed`] and [`Refusal::KeysTooMany`].
///
/// ```
/// use rate_book::{Key, Refusal, MOST_CODES};
///
/// let mut keys = [0; MOST_CODES];
/// let first = rate_book::cell_entry(b"213", b"61, 7-8", &mut keys)?;
/// assert_eq!((first.count, first.rest), (1, &b", 7-8"[..]));
/// let second = rate_book::cell_entry(b"213", &first.rest[1..], &mut keys)?;
/// assert_eq!((second.count, second.rest), (2, &b""[..]));
/// assert_eq!(Key(keys[1]).to_string(), "2138");
/// # Ok::<(), Refusal>(())
/// ```
pub fn cell_entry<'a>(
    country: &[u8],
    cell: &'a [u8],
    keys: &mut [u64],
) -> Result<CellEntry<'a>, Refusal> {
    let read = ffi::cell_entry(country, cell, keys);
    refused_by(read.refusal, 0)?;
    Ok(CellEntry {
        count: read.count as usize,
        rest: &cell[read.rest as usize..],
    })
}
