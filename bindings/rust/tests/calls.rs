//! Each call of the library through the wrapper: the specification's worked examples, each refusal, and what is left in lent
//! memory.
use rate_book::{
    apply, cell, cell_entry, fresh, list, lookup, rate_batch, rate_call, read_rows, words, Answer,
    Applied, Batch, Call, CellEntry, Day, Key, Kind, LineStatus, Moment, Offer, Refusal,
    LONGEST_PERIOD, MOST_CODES, ROW_WORDS, WORD_LAST_RECEIVED, WORD_LATEST_EFFECTIVE, WORD_PERIOD,
};

const CENT: u64 = 1_000_000;
const FULL: u64 = Kind::Full as u64;
const PARTIAL: u64 = Kind::Partial as u64;
const UPDATE: u64 = Kind::Update as u64;
const REPLACEMENT: u64 = Kind::Replacement as u64;
const P1: [u8; 13] = [
    0x03, 0x64, 0x01, 0x05, 0xB8, 0xB7, 0x01, 0x02, 0x02, 0x09, 0x01, 0x01, 0x00,
];

/// Numbers in groups of seven bits.
fn groups(numbers: &[u64]) -> Vec<u8> {
    let mut bytes = Vec::new();
    for &number in numbers {
        let mut left = number;
        while left >= 128 {
            bytes.push((left % 128 + 128) as u8);
            left /= 128;
        }
        bytes.push(left as u8);
    }
    bytes
}

fn digits(code: &str) -> [u64; 2] {
    [code.len() as u64, code.parse().unwrap()]
}

/// A rate line: hundred-millionths, increments, listed day.
fn rated(code: &str, rate: u64, increments: [u64; 2], listed: Option<u64>) -> Vec<u64> {
    let mut line = digits(code).to_vec();
    line.extend([
        LineStatus::Rate as u64,
        8,
        rate,
        increments[0],
        increments[1],
    ]);
    line.push(listed.map_or(0, |day| day + 1));
    line
}

/// A rate line with increments 1/1 and no listed day.
fn at(code: &str, rate: u64) -> Vec<u64> {
    rated(code, rate, [1, 1], None)
}

fn blocked(code: &str) -> Vec<u64> {
    let mut line = digits(code).to_vec();
    line.extend([LineStatus::Block as u64, 0]);
    line
}

fn notice(kind: u64, received: u64, lines: &[Vec<u64>]) -> Vec<u8> {
    let mut fields = vec![kind, received, lines.len() as u64];
    fields.extend(lines.concat());
    groups(&fields)
}

fn replacement(received: u64, country: &str, lines: &[Vec<u64>]) -> Vec<u8> {
    let mut fields = vec![REPLACEMENT, received];
    fields.extend(digits(country));
    fields.push(lines.len() as u64);
    fields.extend(lines.concat());
    groups(&fields)
}

fn fresh_book(period: u64) -> Vec<u64> {
    let mut book = vec![7; words(20)];
    fresh(&mut book, period).unwrap();
    book
}

/// The book after notices, each of which is accepted.
fn book_of(period: u64, notices: &[Vec<u8>]) -> Vec<u64> {
    let mut book = fresh_book(period);
    for notice in notices {
        let mut new = vec![7; book.len()];
        apply(&book, notice, &mut new).unwrap();
        book = new;
    }
    book
}

fn open(rate: u64) -> Offer {
    Offer::Open {
        rate,
        first: 1,
        next: 1,
    }
}

fn offer(book: &[u64], number: &str, day: u64) -> Offer {
    lookup(book, number.as_bytes(), Day(day)).unwrap().offer
}

fn code(book: &[u64], number: &str, day: u64) -> String {
    let key = lookup(book, number.as_bytes(), Day(day)).unwrap().key;
    key.map_or(String::new(), |key| key.to_string())
}

fn start_of(day: u64) -> Moment {
    Moment(day * 86_400)
}

const NOTHING: Answer = Answer {
    key: None,
    offer: Offer::Closed,
};

/// 234806 at 0.13 with increments 1/1, 4420 at 60/60 and 4430 at 30/6, from day 100; 4440 blocked from day 107.
fn priced() -> Vec<u64> {
    let lines = [
        at("234806", 13 * CENT),
        rated("4420", 13 * CENT, [60, 60], None),
        rated("4430", 13 * CENT, [30, 6], None),
        blocked("4440"),
    ];
    book_of(7, &[notice(UPDATE, 100, &lines)])
}

/// Books that are not sound: an entry count above the entries held, a period above 365, a word after the entries, no offer word.
fn unsound() -> [Vec<u64>; 4] {
    let mut counted = fresh_book(7);
    counted[0] = u64::MAX;
    let mut slow = fresh_book(7);
    slow[1] = 366;
    let mut full = fresh_book(7);
    *full.last_mut().unwrap() = 1;
    let mut priced = priced();
    priced[6] = 258;
    [counted, slow, full, priced]
}

#[test]
fn words_to_lend() {
    let asked = [0, 1, 65_535, 65_536, usize::MAX];
    assert_eq!(asked.map(words), [4, 7, 196_609, 196_609, 196_609]);
}

#[test]
fn fresh_sets_every_word_or_none() {
    for len in 4..12 {
        let mut book = vec![9; len];
        assert_eq!(fresh(&mut book, 365), Ok(()));
        let mut expected = vec![0; len];
        expected[1] = 365;
        assert_eq!(book, expected);
    }
    for len in 0..4 {
        let mut book = vec![9; len];
        assert_eq!(fresh(&mut book, 365), Err(Refusal::BookTooShort));
        assert_eq!(fresh(&mut book, 366), Err(Refusal::PeriodTooLong));
        assert_eq!(book, vec![9; len]);
    }
    let mut book = [9; 4];
    assert_eq!(fresh(&mut book, u64::MAX), Err(Refusal::PeriodTooLong));
    assert_eq!(book, [9; 4]);
}

#[test]
fn p1_one_code() {
    let mut book = vec![9; 12];
    let applied = apply(&fresh_book(7), &P1, &mut book);
    assert_eq!(
        applied,
        Ok(Applied {
            entries: 1,
            last_received: Day(100),
            latest_effective: Day(100)
        })
    );
    let key = book[4];
    assert_eq!(Key(key).to_string(), "23480");
    assert_eq!(
        book,
        [1, 7, 100, 100, key, 100, 589_824_000_259, 0, 0, 0, 0, 0]
    );
    assert_eq!(
        lookup(&book, b"23480", Day(100)),
        Ok(Answer {
            key: Some(Key(key)),
            offer: open(9 * CENT)
        })
    );
    assert_eq!(lookup(&book, b"23480", Day(99)), Ok(NOTHING));
    assert_eq!(lookup(&book, b"2348", Day(100)), Ok(NOTHING));
}

#[test]
fn p2_p3_p4_a_longer_code_and_a_partial_notice() {
    let two = notice(
        UPDATE,
        100,
        &[at("23480", 9 * CENT), at("234806", 13 * CENT)],
    );
    let number = "234806121212";
    let book = book_of(7, std::slice::from_ref(&two));
    assert_eq!(offer(&book, number, 100), open(13 * CENT));
    assert_eq!(code(&book, number, 100), "234806");
    assert_eq!(
        rate_call(&book, number.as_bytes(), start_of(99), 60),
        Err(Refusal::NoOffer)
    );

    let later = book_of(
        7,
        &[P1.to_vec(), notice(UPDATE, 100, &[at("234806", 13 * CENT)])],
    );
    assert_eq!(offer(&later, number, 106), open(9 * CENT));
    assert_eq!(offer(&later, number, 107), open(13 * CENT));

    let partial = notice(PARTIAL, 110, &[at("2348", 8 * CENT)]);
    let book = book_of(7, &[two, partial]);
    assert_eq!(book[0], 5);
    assert_eq!(offer(&book, number, 116), open(13 * CENT));
    assert_eq!(offer(&book, number, 117), open(8 * CENT));
    assert_eq!(code(&book, number, 117), "2348");
}

#[test]
fn p5_a_pending_rate() {
    let book = book_of(
        7,
        &[
            notice(UPDATE, 10, &[at("91", CENT)]),
            notice(UPDATE, 20, &[rated("91", 2 * CENT, [1, 1], Some(27))]),
            notice(UPDATE, 26, &[rated("91", CENT / 2, [1, 1], Some(26))]),
        ],
    );
    let rates = [26, 27, 32, 33].map(|day| offer(&book, "91", day));
    assert_eq!(rates, [CENT, 2 * CENT, 2 * CENT, CENT / 2].map(open));
}

#[test]
fn p6_p7_p8_p11_matches_rounding_and_groups() {
    let book = book_of(
        7,
        &[
            notice(UPDATE, 10, &[at("7903", 4 * CENT)]),
            notice(UPDATE, 10, &[at("79", 6 * CENT)]),
        ],
    );
    assert_eq!(offer(&book, "7903797979", 10), open(4 * CENT));

    let nine = |mantissa| {
        let mut fields = vec![UPDATE, 10, 1];
        fields.extend(digits("44"));
        fields.extend([2, 9, mantissa, 1, 1, 0]);
        book_of(0, &[groups(&fields)])
    };
    assert_eq!(offer(&nine(945_046_784), "44", 10), open(94_504_678));
    assert_eq!(offer(&nine(9_990_000_004), "44", 10), open(999_000_000));
    assert_eq!(offer(&nine(9_990_000_005), "44", 10), Offer::Blocked);

    assert_eq!(groups(&[300]), [0xAC, 0x02]);
    assert_eq!(
        apply(&fresh_book(7), &[0x80, 0x00], &mut [0; 4]),
        Err(Refusal::NotShortest)
    );
}

#[test]
fn p9_p10_charges() {
    let book = priced();
    let charged = |number: &[u8], duration| {
        let call = rate_call(&book, number, start_of(100), duration).unwrap();
        (call.key.to_string(), call.charged_seconds, call.charge)
    };
    assert_eq!(
        charged(b"234806121212", 61),
        ("234806".to_string(), 61, 13_216_667)
    );
    assert_eq!(charged(b"44201", 61), ("4420".to_string(), 120, 26_000_000));
    assert_eq!(charged(b"44301", 31), ("4430".to_string(), 36, 7_800_000));
    assert_eq!(charged(b"44301", 0), ("4430".to_string(), 0, 0));
    assert_eq!(charged(b"234806", 604_800).1, 604_800);
}

#[test]
fn a_full_notice_and_a_replacement_close() {
    let book = book_of(
        7,
        &[
            notice(UPDATE, 10, &[at("44", 5 * CENT), at("91", CENT)]),
            notice(FULL, 40, &[at("91", CENT)]),
            replacement(41, "91", &[rated("9198", 2 * CENT, [1, 1], Some(60))]),
        ],
    );
    assert_eq!(offer(&book, "44", 46), open(5 * CENT));
    assert_eq!(offer(&book, "44", 47), Offer::Closed);
    assert_eq!(offer(&book, "919812345", 59), open(CENT));
    assert_eq!(offer(&book, "919812345", 60), open(2 * CENT));
    assert_eq!(offer(&book, "9112345", 60), Offer::Closed);
}

#[test]
fn refused_applies_change_nothing() {
    let old = book_of(7, &[P1.to_vec()]);
    let line = || at("44", CENT);
    let mut status = line();
    status[2] = 3;
    let mut decimals = line();
    decimals[3] = 13;
    let listed = |code, day| rated(code, CENT, [1, 1], Some(day));
    let cases = [
        (vec![], Refusal::BytesEnd),
        (vec![3], Refusal::BytesEnd),
        (P1[..12].to_vec(), Refusal::BytesEnd),
        (vec![0x80; 8], Refusal::BytesEnd),
        (vec![0x80; 9], Refusal::NotShortest),
        (vec![0x83, 0x00], Refusal::NotShortest),
        (notice(0, 100, &[line()]), Refusal::UnknownKind),
        (notice(UPDATE, 100, &[status]), Refusal::UnknownKind),
        (notice(UPDATE, 60_001, &[line()]), Refusal::OutOfRange),
        (notice(UPDATE, 100, &[]), Refusal::OutOfRange),
        (notice(UPDATE, 100, &[decimals]), Refusal::OutOfRange),
        (
            notice(UPDATE, 100, &[rated("44", CENT, [0, 1], None)]),
            Refusal::OutOfRange,
        ),
        (
            notice(UPDATE, 100, &[at("23", CENT)]),
            Refusal::CodeNotAllowed,
        ),
        (
            notice(UPDATE, 100, &[at("044", CENT)]),
            Refusal::CodeNotAllowed,
        ),
        (replacement(100, "4", &[line()]), Refusal::CodeNotAllowed),
        (
            notice(UPDATE, 100, &[line(), line()]),
            Refusal::KeysNotRising,
        ),
        (
            notice(UPDATE, 100, &[at("91", CENT), line()]),
            Refusal::KeysNotRising,
        ),
        (replacement(100, "91", &[line()]), Refusal::OutsideCountry),
        (
            replacement(100, "44", &[listed("44", 110), listed("4420", 111)]),
            Refusal::DaysDiffer,
        ),
        ([&P1[..], &[0]].concat(), Refusal::BytesLeft),
        (notice(UPDATE, 99, &[line()]), Refusal::ReceivedEarlier),
    ];
    for (bytes, refusal) in cases {
        let mut new = vec![9; old.len()];
        assert_eq!(
            apply(&old, &bytes, &mut new),
            Err(refusal),
            "notice {bytes:?}"
        );
        assert_eq!(new, vec![9; old.len()], "notice {bytes:?}");
    }
}

#[test]
fn books_that_an_apply_refuses() {
    let good = fresh_book(7);
    for len in 0..4 {
        let mut new = vec![9; 7];
        assert_eq!(
            apply(&good[..len], &[], &mut new),
            Err(Refusal::BookTooShort)
        );
        assert_eq!(new, [9; 7]);
        let mut new = vec![9; len];
        assert_eq!(apply(&good, &[], &mut new), Err(Refusal::BookTooShort));
        assert_eq!(new, vec![9; len]);
    }
    for book in unsound() {
        let mut new = [9; 3];
        assert_eq!(apply(&book, &P1, &mut new), Err(Refusal::BookNotSound));
        assert_eq!(new, [9; 3]);
    }
    // One entry takes seven words.
    let mut new = [9; 6];
    assert_eq!(apply(&good, &P1, &mut new), Err(Refusal::BookFull));
    assert_eq!(new, [9; 6]);
    assert!(apply(&good, &P1, &mut [9; 7]).is_ok());
}

#[test]
fn refused_lookups() {
    let book = priced();
    for len in 0..4 {
        assert_eq!(
            lookup(&book[..len], b"", Day(65_001)),
            Err(Refusal::BookTooShort)
        );
    }
    for book in unsound() {
        assert_eq!(lookup(&book, b"", Day(65_001)), Err(Refusal::BookNotSound));
    }
    let numbers: [&[u8]; 6] = [
        b"",
        b"0",
        b"0234806",
        b"2348061212121212",
        b"23480x",
        b"+234806",
    ];
    for number in numbers {
        assert_eq!(lookup(&book, number, Day(65_001)), Err(Refusal::NotANumber));
    }
    for day in [65_001, u64::MAX] {
        assert_eq!(
            lookup(&book, b"44201", Day(day)),
            Err(Refusal::TimeOutOfRange)
        );
    }
    assert_eq!(offer(&book, "234806121212121", 65_000), open(13 * CENT));
    assert_eq!(offer(&book, "44401", 106), Offer::Closed);
    assert_eq!(offer(&book, "44401", 107), Offer::Blocked);
    assert_eq!(code(&book, "44401", 107), "4440");
    assert_eq!(lookup(&book, b"2", Day(107)), Ok(NOTHING));
}

#[test]
fn refused_calls() {
    let book = priced();
    let late = Moment(Moment::END.0);
    let too_long = 604_801;
    assert_eq!(
        rate_call(&book[..3], b"", late, too_long),
        Err(Refusal::BookTooShort)
    );
    assert_eq!(
        rate_call(&[], b"44301", start_of(100), 1),
        Err(Refusal::BookTooShort)
    );
    for book in unsound() {
        assert_eq!(
            rate_call(&book, b"", late, too_long),
            Err(Refusal::BookNotSound)
        );
    }
    let call = |number: &[u8], start, duration| rate_call(&book, number, start, duration);
    assert_eq!(call(b"", late, too_long), Err(Refusal::NotANumber));
    assert_eq!(call(b"44x", late, too_long), Err(Refusal::NotANumber));
    assert_eq!(call(b"91", late, too_long), Err(Refusal::TimeOutOfRange));
    assert_eq!(
        call(b"91", start_of(107), too_long),
        Err(Refusal::DurationTooLong)
    );
    assert_eq!(call(b"91", start_of(107), 0), Err(Refusal::NoOffer));
    assert_eq!(
        call(b"44401", Moment(107 * 86_400 - 1), 1),
        Err(Refusal::NoOffer)
    );
    match call(b"44401", start_of(107), 1) {
        Err(Refusal::OfferBlocked(key)) => assert_eq!(key.to_string(), "4440"),
        other => panic!("{other:?}"),
    }
    assert!(call(b"44301", Moment(Moment::END.0 - 1), 1).is_ok());
}

/// A call: number, moment, duration.
type Feed = (&'static str, u64, u64);

const FEED: [Feed; 8] = [
    ("234806121212", 100 * 86_400, 61),
    ("44201", 100 * 86_400, 61),
    ("44301", 100 * 86_400, 31),
    ("44401", 107 * 86_400, 31),
    ("91", 107 * 86_400, 31),
    ("44201", 5_616_086_400, 61),
    ("44201", 107 * 86_400, 604_801),
    ("044201", 107 * 86_400, 61),
];

fn batch_of(feed: &[Feed]) -> Vec<u8> {
    let mut fields = vec![feed.len() as u64];
    for &(number, moment, duration) in feed {
        fields.extend(digits(number));
        fields.extend([moment, duration]);
    }
    groups(&fields)
}

#[test]
fn a_batch_rates_each_call_as_alone() {
    let book = priced();
    let mut rows = vec![9; FEED.len() * ROW_WORDS + 5];
    let answer = rate_batch(&book, &batch_of(&FEED), &mut rows);
    assert_eq!(
        answer,
        Ok(Batch {
            rated: 3,
            refused: 5,
            total: 13_216_667 + 26_000_000 + 7_800_000
        })
    );
    let (written, untouched) = rows.split_at(FEED.len() * ROW_WORDS);
    assert_eq!(untouched, [9; 5]);
    let alone: Vec<Result<Call, Refusal>> = FEED
        .iter()
        .map(|&(number, moment, duration)| {
            rate_call(&book, number.as_bytes(), Moment(moment), duration)
        })
        .collect();
    assert_eq!(
        read_rows(&answer.unwrap(), &rows).collect::<Vec<_>>(),
        alone
    );
    for row in written.chunks(ROW_WORDS) {
        assert!(row[0] == 0 || row[2..] == [0, 0]);
        assert_eq!(row[1] != 0, row[0] == 0 || row[0] == 44);
    }
}

#[test]
fn numbers_that_fill_a_row_with_40() {
    let book = priced();
    let start = start_of(100).0;
    // No digits, sixteen, a value of more digits than the count, a leading 0.
    let pairs = [[0, 0], [16, 5], [2, 100], [3, 44]];
    let mut fields = vec![pairs.len() as u64];
    for pair in pairs {
        fields.extend(pair);
        fields.extend([start, 1]);
    }
    let mut rows = vec![9; pairs.len() * ROW_WORDS];
    let answer = rate_batch(&book, &groups(&fields), &mut rows).unwrap();
    assert_eq!((answer.rated, answer.refused, answer.total), (0, 4, 0));
    assert_eq!(
        read_rows(&answer, &rows).collect::<Vec<_>>(),
        [Err(Refusal::NotANumber); 4]
    );
}

#[test]
fn rows_are_read_for_the_calls_of_the_batch_alone() {
    let book = priced();
    // Rows for 100 calls. The rows after the batch's own hold zeros, which would read as rated calls.
    let mut rows = vec![0; 100 * ROW_WORDS];
    let answer = rate_batch(&book, &batch_of(&FEED[..4]), &mut rows).unwrap();
    assert_eq!((answer.rated, answer.refused), (3, 1));
    let calls = read_rows(&answer, &rows);
    assert_eq!(calls.len(), 4);
    let calls: Vec<_> = calls.collect();
    assert_eq!(calls.len(), 4);
    assert_eq!(calls.iter().filter(|call| call.is_ok()).count(), 3);
    // Rows of another slice, too few: those that are there.
    assert_eq!(read_rows(&answer, &rows[..2 * ROW_WORDS + 3]).count(), 2);

    let none = rate_batch(&book, &[0], &mut rows).unwrap();
    assert_eq!(read_rows(&none, &rows).count(), 0);
}

#[test]
fn an_empty_batch() {
    let none = Batch {
        rated: 0,
        refused: 0,
        total: 0,
    };
    assert_eq!(rate_batch(&priced(), &[0], &mut []), Ok(none));
}

#[test]
fn stopped_batches_change_nothing() {
    let book = priced();
    let whole = batch_of(&FEED);
    let cases = [
        (vec![], Refusal::BytesEnd),
        (whole[..whole.len() - 1].to_vec(), Refusal::BytesEnd),
        (vec![1], Refusal::BytesEnd),
        (vec![0x81, 0x00], Refusal::NotShortest),
        (vec![1, 2, 91, 0, 0x80, 0x00], Refusal::NotShortest),
        (groups(&[65_536]), Refusal::OutOfRange),
        ([&whole[..], &[0]].concat(), Refusal::BytesLeft),
        (vec![0, 0], Refusal::BytesLeft),
    ];
    for (bytes, refusal) in cases {
        let mut rows = vec![9; FEED.len() * ROW_WORDS];
        assert_eq!(
            rate_batch(&book, &bytes, &mut rows),
            Err(refusal),
            "batch {bytes:?}"
        );
        assert_eq!(rows, vec![9; rows.len()]);
        assert_eq!(rate_batch(&book, &bytes, &mut []), Err(refusal));
    }
    for len in [0, FEED.len() * ROW_WORDS - 1] {
        let mut rows = vec![9; len];
        assert_eq!(
            rate_batch(&book, &whole, &mut rows),
            Err(Refusal::BufferTooShort)
        );
        assert_eq!(rows, vec![9; len]);
    }
    assert_eq!(rate_batch(&[], &[], &mut []), Err(Refusal::BookTooShort));
    for book in unsound() {
        assert_eq!(rate_batch(&book, &[], &mut []), Err(Refusal::BookNotSound));
    }
}

#[test]
fn the_standing_list() {
    let book = priced();
    let expected = notice(
        FULL,
        107,
        &[
            at("234806", 13 * CENT),
            rated("4420", 13 * CENT, [60, 60], None),
            rated("4430", 13 * CENT, [30, 6], None),
            blocked("4440"),
        ],
    );
    let mut out = vec![9; expected.len() + 3];
    assert_eq!(list(&book, Day(107), &mut out), Ok(expected.len()));
    assert_eq!(out[..expected.len()], expected);
    assert_eq!(out[expected.len()..], [9; 3]);

    let mut exact = vec![9; expected.len()];
    assert_eq!(list(&book, Day(107), &mut exact), Ok(expected.len()));
    assert_eq!(exact, expected);

    // Applied to a fresh book with no notice period, it gives the same offers.
    let again = book_of(0, &[expected]);
    for number in ["234806121212", "44201", "44301", "44401", "91"] {
        let asked = number.as_bytes();
        assert_eq!(
            lookup(&again, asked, Day(107)),
            lookup(&book, asked, Day(107))
        );
    }
}

#[test]
fn a_list_loads_into_a_fresh_book_of_notice_period_0() {
    let mut book = book_of(
        7,
        &[notice(UPDATE, 10, &[at("44", 5 * CENT), blocked("4470")])],
    );
    let mut bytes = [0; 99];
    let length = list(&book, Day(20), &mut bytes).unwrap();
    let listed = bytes[..length].to_vec();

    // With a notice period the block waits, and until then the shorter code prices the number.
    let trap = book_of(7, &[listed.clone()]);
    assert_eq!(offer(&trap, "4470", 26), open(5 * CENT));
    assert_eq!(code(&trap, "4470", 26), "44");
    assert_eq!(offer(&trap, "4470", 27), Offer::Blocked);

    let mut loaded = book_of(0, &[listed]);
    assert_eq!(offer(&loaded, "4470", 19), Offer::Closed);
    assert_eq!(offer(&loaded, "4470", 20), Offer::Blocked);
    assert_eq!(loaded[WORD_LAST_RECEIVED], 20);
    assert_eq!(loaded[WORD_LATEST_EFFECTIVE], 20);

    // Any notice period in range leaves the book sound, and later notices go by it.
    for period in [0, 7, LONGEST_PERIOD] {
        loaded[WORD_PERIOD] = period;
        assert_eq!(offer(&loaded, "4470", 20), Offer::Blocked);
        let dearer = notice(UPDATE, 21, &[at("44", 6 * CENT)]);
        let mut left = vec![9; loaded.len()];
        apply(&loaded, &dearer, &mut left).unwrap();
        assert_eq!(offer(&left, "44", 20 + period), open(5 * CENT));
        assert_eq!(offer(&left, "44", 21 + period), open(6 * CENT));
    }
    loaded[WORD_PERIOD] = LONGEST_PERIOD + 1;
    assert_eq!(
        lookup(&loaded, b"4470", Day(20)),
        Err(Refusal::BookNotSound)
    );

    // A close and a price that are pending on the list's day are not in it.
    let pending = [
        rated("44", 6 * CENT, [1, 1], Some(40)),
        [&digits("4470")[..], &[LineStatus::Delete as u64, 41]].concat(),
    ];
    let mut left = vec![9; book.len()];
    apply(&book, &notice(UPDATE, 21, &pending), &mut left).unwrap();
    book = left;
    assert_eq!(offer(&book, "44", 40), open(6 * CENT));
    assert_eq!(offer(&book, "4470", 40), open(6 * CENT));
    let length = list(&book, Day(21), &mut bytes).unwrap();
    let loaded = book_of(0, &[bytes[..length].to_vec()]);
    assert_eq!(offer(&loaded, "44", 65_000), open(5 * CENT));
    assert_eq!(offer(&loaded, "4470", 65_000), Offer::Blocked);
}

#[test]
fn refused_lists_change_nothing() {
    let book = priced();
    let mut short = vec![9; list(&book, Day(107), &mut [0; 99]).unwrap() - 1];
    assert_eq!(
        list(&book, Day(107), &mut short),
        Err(Refusal::BufferTooShort)
    );
    assert_eq!(short, vec![9; short.len()]);
    assert_eq!(list(&book, Day(107), &mut []), Err(Refusal::BufferTooShort));
    assert_eq!(list(&book, Day(99), &mut []), Err(Refusal::NoOffer));
    assert_eq!(
        list(&book, Day(60_001), &mut []),
        Err(Refusal::TimeOutOfRange)
    );
    assert!(list(&book, Day::LAST_RECEIVED, &mut [0; 99]).is_ok());
    assert_eq!(list(&[], Day(60_001), &mut []), Err(Refusal::BookTooShort));
    for book in unsound() {
        assert_eq!(
            list(&book, Day(60_001), &mut []),
            Err(Refusal::BookNotSound)
        );
    }
}

/// The codes of a cell, read with so many words of room.
fn codes(country: &str, text: &str, room: usize) -> Result<Vec<String>, Refusal> {
    let mut keys = vec![9; room];
    let read = cell(country.as_bytes(), text.as_bytes(), &mut keys);
    let written = read.unwrap_or(0);
    assert_eq!(keys[written..], vec![9; room - written]);
    read.map(|count| {
        let shown = keys[..count].iter().map(|&key| Key(key).to_string());
        shown.collect()
    })
}

#[test]
fn cells_name_codes() {
    let cases: [(&str, &str, &[&str]); 9] = [
        (
            "355",
            "38, 68, 699, 4",
            &["35538", "3554", "35568", "355699"],
        ),
        ("213", "61, 7-8", &["21361", "2137", "2138"]),
        ("", "21361, 2137-2138", &["21361", "2137", "2138"]),
        ("", "27,211,20,27", &["20", "211", "27"]),
        ("", "43-46,44-48", &["43", "44", "45", "46", "47", "48"]),
        ("213", " 08-09 ", &["21308", "21309"]),
        ("355", "", &["355"]),
        ("355", "  ", &["355"]),
        ("2", "13", &["213"]),
    ];
    for (country, text, expected) in cases {
        let count = expected.len();
        for room in [count, count + 3] {
            assert_eq!(codes(country, text, room).unwrap(), expected, "{text}");
        }
        assert_eq!(codes(country, text, count - 1), Err(Refusal::KeysTooMany));
    }
    assert_eq!(codes("1", "000-999", MOST_CODES).unwrap()[999], "1999");
}

#[test]
fn refused_cells_change_nothing() {
    let refused = |country, text, room| codes(country, text, room).unwrap_err();
    for (country, text) in [
        ("", ""),
        ("", " "),
        ("355", ","),
        ("213", "61, ,7"),
        ("", "44-"),
        ("", "44 -46"),
        ("", "4 4"),
        ("", "44-45-46"),
        ("", "44;46"),
        ("", "2"),
        ("", "044"),
        ("", "1-7"),
        ("", "7-2"),
        ("", "0000000000000001"),
        ("213 ", "61"),
        ("2", ""),
    ] {
        assert_eq!(
            refused(country, text, 9),
            Refusal::EntryNotAllowed,
            "{text}"
        );
    }
    for (country, text) in [
        ("", "27-20"),
        ("", "98-100"),
        ("213", "7-08"),
        ("1", "0000-1000"),
        ("", "100000000000000-999999999999999"),
    ] {
        assert_eq!(
            refused(country, text, 0),
            Refusal::RangeNotAllowed,
            "{text}"
        );
    }
    // The first refused entry decides.
    assert_eq!(refused("", "7,1,", 1), Refusal::KeysTooMany);
    assert_eq!(refused("", "7,1,", 2), Refusal::EntryNotAllowed);
    assert_eq!(refused("", "7,,1", 1), Refusal::EntryNotAllowed);
    assert_eq!(refused("", "1000-2000,,", 0), Refusal::RangeNotAllowed);
}

#[test]
fn a_cell_is_read_entry_by_entry() {
    let text = b"61, 7-8 ,699, 07-12";
    let mut whole = [0; 10];
    let count = cell(b"213", text, &mut whole).unwrap();
    assert_eq!(count, 10);
    let mut all = Vec::new();
    let mut rest: &[u8] = text;
    loop {
        let mut keys = [9; 7];
        let read = cell_entry(b"213", rest, &mut keys).unwrap();
        assert_eq!(keys[read.count..], [9; 7][read.count..]);
        all.extend_from_slice(&keys[..read.count]);
        match read.rest {
            [] => break,
            [comma, later @ ..] => {
                assert_eq!(*comma, b',');
                rest = later;
            }
        }
    }
    all.sort_unstable();
    assert_eq!(all, whole);
}

#[test]
fn the_first_entry_of_a_cell() {
    let mut keys = [9; 2];
    // The rest is borrowed from the cell alone.
    let text = b"7-8,x".to_vec();
    let read = cell_entry(b"213", &text, &mut keys);
    assert_eq!(keys.map(|key| Key(key).to_string()), ["2137", "2138"]);
    let rest = &text[3..];
    assert_eq!(read, Ok(CellEntry { count: 2, rest }));

    keys = [9; 2];
    let mut refused = |text: &[u8], room| cell_entry(b"213", text, &mut keys[..room]).unwrap_err();
    assert_eq!(refused(b"", 2), Refusal::EntryNotAllowed);
    assert_eq!(refused(b"  ", 2), Refusal::EntryNotAllowed);
    assert_eq!(refused(b",7", 2), Refusal::EntryNotAllowed);
    assert_eq!(refused(b"8-7,7", 2), Refusal::RangeNotAllowed);
    assert_eq!(refused(b"7-8,x", 1), Refusal::KeysTooMany);
    assert_eq!(keys, [9; 2]);
}

#[test]
fn the_most_entries() {
    // Codes of six digits in country 7.
    let lines: Vec<Vec<u64>> = (0..65_535).map(|n| at(&format!("7{n:05}"), CENT)).collect();
    let all = notice(UPDATE, 10, &lines);
    let mut book = vec![9; words(65_535)];
    let applied = apply(&fresh_book(7), &all, &mut book).unwrap();
    assert_eq!(applied.entries, 65_535);
    assert_eq!(offer(&book, "7655340", 10), open(CENT));
    assert_eq!(offer(&book, "765535", 10), Offer::Closed);

    let mut more = vec![9; words(65_535) + 300];
    let one = notice(UPDATE, 10, &[at("79", CENT)]);
    assert_eq!(apply(&book, &one, &mut more), Err(Refusal::BookFull));
    assert!(more.iter().all(|&word| word == 9));
}

#[test]
fn one_book_read_from_many_threads() {
    let book = priced();
    let batch = batch_of(&FEED);
    std::thread::scope(|scope| {
        for _ in 0..4 {
            scope.spawn(|| {
                let mut rows = [0; FEED.len() * ROW_WORDS];
                for _ in 0..100 {
                    let answer = rate_batch(&book, &batch, &mut rows).unwrap();
                    assert_eq!((answer.rated, answer.refused), (3, 5));
                }
            });
        }
    });
}

#[test]
fn keys_show_their_digits() {
    assert_eq!(Key(0).to_string(), "");
    assert_eq!(Key(u64::MAX).to_string(), "");
    assert_eq!(Key(11u64.pow(15)).to_string(), "");
    assert_eq!(Key(11u64.pow(15) - 1).to_string(), "9".repeat(15));
}

#[test]
fn refusals_say_their_cause() {
    let refusal = Refusal::ReceivedEarlier;
    assert_eq!(
        refusal.to_string(),
        "refusal 10: received before the last accepted notice"
    );
    let error: Box<dyn std::error::Error> = Box::new(refusal);
    assert!(error.to_string().contains(refusal.cause()));
}
