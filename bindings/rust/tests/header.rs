//! The wrapper's constants and the numbers of its enums are those of `include/rate_book.h`, name by name.
use rate_book::{Day, Kind, LineStatus, Moment};
use std::collections::BTreeMap;

const HEADER: &str = include_str!("../../../include/rate_book.h");

/// The number that a text begins with: digits, or digits within `UINT64_C`.
fn number(text: &str) -> u64 {
    let text = text.strip_prefix("UINT64_C(").unwrap_or(text);
    let digits: String = text.chars().take_while(char::is_ascii_digit).collect();
    digits.parse().unwrap()
}

/// The constants of the header that have a value.
fn defined() -> BTreeMap<&'static str, u64> {
    HEADER
        .lines()
        .filter_map(|line| line.strip_prefix("#define RATE_BOOK_")?.split_once(' '))
        .filter(|(name, _)| *name != "MUST_USE")
        .map(|(name, value)| (name, number(value)))
        .collect()
}

/// The cases of an enum of the header.
fn cases(of: &str) -> BTreeMap<&'static str, u64> {
    let first = HEADER.find(&format!("enum {of} {{")).unwrap();
    let last = first + HEADER[first..].find("};").unwrap();
    HEADER[first..last]
        .lines()
        .filter_map(|line| line.trim().strip_prefix("RATE_BOOK_")?.split_once(" = "))
        .map(|(name, value)| (name, number(value)))
        .collect()
}

#[test]
fn constants() {
    let here = [
        ("LAST_DAY", Day::LAST.0),
        ("LAST_RECEIVED_DAY", Day::LAST_RECEIVED.0),
        ("MOMENTS_END", Moment::END.0),
        ("DAY_SECONDS", Day::SECONDS),
        ("LONGEST_DURATION", rate_book::LONGEST_DURATION),
        ("LONGEST_PERIOD", rate_book::LONGEST_PERIOD),
        ("DEAREST_RATE", rate_book::DEAREST_RATE),
        ("LONGEST_CODE", rate_book::LONGEST_CODE as u64),
        ("MOST_DECIMALS", rate_book::MOST_DECIMALS),
        ("LARGEST_MANTISSA", rate_book::LARGEST_MANTISSA),
        ("LONGEST_INCREMENT", rate_book::LONGEST_INCREMENT),
        ("MOST_LINES", rate_book::MOST_LINES as u64),
        ("MOST_ENTRIES", rate_book::MOST_ENTRIES as u64),
        ("MOST_CALLS", rate_book::MOST_CALLS as u64),
        ("MOST_CODES", rate_book::MOST_CODES as u64),
        ("HEADER_WORDS", rate_book::HEADER_WORDS as u64),
        ("WORD_ENTRIES", rate_book::WORD_ENTRIES as u64),
        ("WORD_PERIOD", rate_book::WORD_PERIOD as u64),
        ("WORD_LAST_RECEIVED", rate_book::WORD_LAST_RECEIVED as u64),
        (
            "WORD_LATEST_EFFECTIVE",
            rate_book::WORD_LATEST_EFFECTIVE as u64,
        ),
        ("ENTRY_WORDS", rate_book::ENTRY_WORDS as u64),
        ("ROW_WORDS", rate_book::ROW_WORDS as u64),
        ("LONGEST_LIST_HEAD", rate_book::LONGEST_LIST_HEAD as u64),
        ("LONGEST_LIST_LINE", rate_book::LONGEST_LIST_LINE as u64),
    ];
    assert_eq!(BTreeMap::from(here), defined());
}

#[test]
fn kinds_and_statuses() {
    let kinds = [
        ("KIND_FULL", Kind::Full as u64),
        ("KIND_PARTIAL", Kind::Partial as u64),
        ("KIND_UPDATE", Kind::Update as u64),
        ("KIND_REPLACEMENT", Kind::Replacement as u64),
    ];
    assert_eq!(BTreeMap::from(kinds), cases("rate_book_kind"));
    let statuses = [
        ("LINE_DELETE", LineStatus::Delete as u64),
        ("LINE_BLOCK", LineStatus::Block as u64),
        ("LINE_RATE", LineStatus::Rate as u64),
    ];
    assert_eq!(BTreeMap::from(statuses), cases("rate_book_line"));
}
