use crate::Key;
use std::fmt;

/// Why a call was refused. A refused call leaves all lent memory as it was.
///
/// The compiler warns where a call's result is dropped, and a refusal with it:
///
/// ```compile_fail
/// #![deny(unused_must_use)]
/// rate_book::fresh(&mut [0; 4], 7);
/// ```
#[derive(Clone, Copy, Debug, PartialEq, Eq, Hash)]
pub enum Refusal {
    /// 1: bytes end before a due field's end, short of nine bytes.
    BytesEnd,
    /// 2: a number not in its shortest form, or a ninth byte with its top bit set.
    NotShortest,
    /// 3: unknown kind of notice, or status of a line.
    UnknownKind,
    /// 4: a field outside its range.
    OutOfRange,
    /// 5: a code not allowed, or a replacement country that is not exactly a country code.
    CodeNotAllowed,
    /// 6: a line's key not above the one before it.
    KeysNotRising,
    /// 7: a line outside the replacement's country.
    OutsideCountry,
    /// 8: replacement lines whose last fields differ.
    DaysDiffer,
    /// 9: bytes after the end.
    BytesLeft,
    /// 10: a notice received before the last accepted one.
    ReceivedEarlier,
    /// 20: a book under four words.
    BookTooShort,
    /// 21: a book that is not sound.
    BookNotSound,
    /// 22: a notice period above 365.
    PeriodTooLong,
    /// 23: rows or list buffer too short.
    BufferTooShort,
    /// 30: more entries than the new book holds.
    BookFull,
    /// 40: a number empty, over 15 digits, with a non-digit or starting with 0.
    NotANumber,
    /// 41: a day or moment beyond its end; for a list, a day above 60,000.
    TimeOutOfRange,
    /// 42: a duration beyond its end.
    DurationTooLong,
    /// 43: no offer for the number; for a list, nothing standing.
    NoOffer,
    /// 44: the offer is blocked, by the code of this key.
    OfferBlocked(Key),
    /// 50: in a cell, an empty entry or range end, a stray byte (in the country cell too) or a code not allowed.
    EntryNotAllowed,
    /// 51: in a cell, a range with ends of unequal length, falling ends or more than 1,000 codes.
    RangeNotAllowed,
    /// 52: more distinct keys in a cell than the lent slice holds.
    KeysTooMany,
    /// Any other number. No call of the library gives one; it can only come from rows that no batch filled, or from an archive of
    /// another version.
    Unlisted(u64),
}

impl Refusal {
    /// The refusal number of the specification.
    #[must_use]
    pub const fn number(self) -> u64 {
        match self {
            Refusal::BytesEnd => 1,
            Refusal::NotShortest => 2,
            Refusal::UnknownKind => 3,
            Refusal::OutOfRange => 4,
            Refusal::CodeNotAllowed => 5,
            Refusal::KeysNotRising => 6,
            Refusal::OutsideCountry => 7,
            Refusal::DaysDiffer => 8,
            Refusal::BytesLeft => 9,
            Refusal::ReceivedEarlier => 10,
            Refusal::BookTooShort => 20,
            Refusal::BookNotSound => 21,
            Refusal::PeriodTooLong => 22,
            Refusal::BufferTooShort => 23,
            Refusal::BookFull => 30,
            Refusal::NotANumber => 40,
            Refusal::TimeOutOfRange => 41,
            Refusal::DurationTooLong => 42,
            Refusal::NoOffer => 43,
            Refusal::OfferBlocked(_) => 44,
            Refusal::EntryNotAllowed => 50,
            Refusal::RangeNotAllowed => 51,
            Refusal::KeysTooMany => 52,
            Refusal::Unlisted(number) => number,
        }
    }

    /// The cause, for a person.
    #[must_use]
    pub const fn cause(self) -> &'static str {
        match self {
            Refusal::BytesEnd => "bytes end before a due field's end",
            Refusal::NotShortest => "a number is not in its shortest form, or too long",
            Refusal::UnknownKind => "unknown kind of notice or status of a line",
            Refusal::OutOfRange => "a field is outside its range",
            Refusal::CodeNotAllowed => {
                "a code is not allowed, or a replacement country is not exactly a country code"
            }
            Refusal::KeysNotRising => "keys are not rising",
            Refusal::OutsideCountry => "a line is outside the replacement's country",
            Refusal::DaysDiffer => "replacement days differ",
            Refusal::BytesLeft => "bytes after the end",
            Refusal::ReceivedEarlier => "received before the last accepted notice",
            Refusal::BookTooShort => "a book is under four words",
            Refusal::BookNotSound => "a book is not sound",
            Refusal::PeriodTooLong => "the notice period is above 365 days",
            Refusal::BufferTooShort => "the rows or the list buffer are too short",
            Refusal::BookFull => "more entries than the new book holds",
            Refusal::NotANumber => {
                "the number is empty, over 15 digits, has a non-digit or starts with 0"
            }
            Refusal::TimeOutOfRange => "the day or moment is beyond its end",
            Refusal::DurationTooLong => "the duration is beyond its end",
            Refusal::NoOffer => "no offer",
            Refusal::OfferBlocked(_) => "the offer is blocked",
            Refusal::EntryNotAllowed => {
                "an entry or a range end is empty, has a stray byte or is no code that is allowed"
            }
            Refusal::RangeNotAllowed => {
                "a range's ends differ in length or fall, or it has more than 1,000 codes"
            }
            Refusal::KeysTooMany => "more keys than the lent slice holds",
            Refusal::Unlisted(_) => "a number that this crate does not list",
        }
    }

    /// The refusal of a number other than 0, with the key of the answer.
    pub(crate) const fn of(number: u64, key: u64) -> Refusal {
        match number {
            1 => Refusal::BytesEnd,
            2 => Refusal::NotShortest,
            3 => Refusal::UnknownKind,
            4 => Refusal::OutOfRange,
            5 => Refusal::CodeNotAllowed,
            6 => Refusal::KeysNotRising,
            7 => Refusal::OutsideCountry,
            8 => Refusal::DaysDiffer,
            9 => Refusal::BytesLeft,
            10 => Refusal::ReceivedEarlier,
            20 => Refusal::BookTooShort,
            21 => Refusal::BookNotSound,
            22 => Refusal::PeriodTooLong,
            23 => Refusal::BufferTooShort,
            30 => Refusal::BookFull,
            40 => Refusal::NotANumber,
            41 => Refusal::TimeOutOfRange,
            42 => Refusal::DurationTooLong,
            43 => Refusal::NoOffer,
            44 => Refusal::OfferBlocked(Key(key)),
            50 => Refusal::EntryNotAllowed,
            51 => Refusal::RangeNotAllowed,
            52 => Refusal::KeysTooMany,
            other => Refusal::Unlisted(other),
        }
    }
}

/// The number and its cause.
impl fmt::Display for Refusal {
    fn fmt(&self, f: &mut fmt::Formatter<'_>) -> fmt::Result {
        write!(f, "refusal {}: {}", self.number(), self.cause())
    }
}

impl std::error::Error for Refusal {}

#[cfg(test)]
mod tests {
    use super::*;

    /// `BYTES_END` as `BytesEnd`.
    fn camel(name: &str) -> String {
        name.split('_')
            .map(|word| word[..1].to_string() + &word[1..].to_lowercase())
            .collect()
    }

    #[test]
    fn names_and_numbers_as_in_the_header() {
        let header = include_str!("../../../include/rate_book.h");
        let first = header.find("enum rate_book_refusal {").unwrap();
        let last = first + header[first..].find("};").unwrap();
        let mut listed = Vec::new();
        for line in header[first..last].lines() {
            if let Some(item) = line.trim().strip_prefix("RATE_BOOK_") {
                let (name, rest) = item.split_once(" = ").unwrap();
                let digits = rest.split(|c: char| !c.is_ascii_digit()).next().unwrap();
                listed.push((camel(name), digits.parse::<u64>().unwrap()));
            }
        }
        assert_eq!(listed.remove(0), ("NotRefused".to_string(), 0));
        assert_eq!(listed.len(), 23);
        for (name, number) in &listed {
            let refusal = Refusal::of(*number, 5);
            assert_eq!(refusal.number(), *number);
            assert_eq!(
                format!("{refusal:?}").split('(').next(),
                Some(name.as_str())
            );
        }
        for number in (0..100).filter(|n| !listed.iter().any(|(_, listed)| listed == n)) {
            assert_eq!(Refusal::of(number, 0), Refusal::Unlisted(number));
        }
    }

    #[test]
    fn a_blocked_call_keeps_its_key() {
        assert_eq!(Refusal::of(44, 5), Refusal::OfferBlocked(Key(5)));
    }
}
