//! The library's calls as `include/rate_book.h` declares them, each behind a safe function. All unsafe code of the crate is here.
//!
//! What the header asks of the host is what Rust gives for slices. The pointer of any slice, an empty one too, is aligned and
//! not null, and good for the slice's length. A `&mut` slice overlaps no other borrowed slice, and nobody else reads or writes it
//! while it is borrowed; nobody writes a `&` slice while it is borrowed. The calls keep no pointer when they return.

/// `rate_book_applied`
#[repr(C)]
pub struct Applied {
    pub refusal: u64,
    pub entries: u64,
    pub last_received: u64,
    pub latest_effective: u64,
}

/// `rate_book_offer`
#[repr(C)]
pub struct Offer {
    pub refusal: u64,
    pub key: u64,
    pub status: u64,
    pub rate: u64,
    pub first: u64,
    pub next: u64,
}

/// `rate_book_call`
#[repr(C)]
pub struct Call {
    pub refusal: u64,
    pub key: u64,
    pub charged_seconds: u64,
    pub charge: u64,
}

/// `rate_book_batch`
#[repr(C)]
pub struct Batch {
    pub refusal: u64,
    pub rated: u64,
    pub refused: u64,
    pub total: u64,
}

/// `rate_book_listed`
#[repr(C)]
pub struct Listed {
    pub refusal: u64,
    pub length: u64,
}

/// `rate_book_cell_keys`
#[repr(C)]
pub struct CellKeys {
    pub refusal: u64,
    pub count: u64,
}

/// `rate_book_entry_keys`
#[repr(C)]
pub struct EntryKeys {
    pub refusal: u64,
    pub count: u64,
    pub rest: u64,
}

extern "C" {
    fn rate_book_words(entries: u64) -> u64;
    fn rate_book_fresh(book: *mut u64, len: usize, notice_period: u64) -> u64;
    fn rate_book_apply(
        old_book: *const u64,
        old_len: usize,
        notice: *const u8,
        notice_len: usize,
        new_book: *mut u64,
        new_len: usize,
    ) -> Applied;
    fn rate_book_lookup(
        book: *const u64,
        len: usize,
        number: *const u8,
        number_len: usize,
        day: u64,
    ) -> Offer;
    fn rate_book_rate_call(
        book: *const u64,
        len: usize,
        number: *const u8,
        number_len: usize,
        moment: u64,
        duration: u64,
    ) -> Call;
    fn rate_book_rate_batch(
        book: *const u64,
        len: usize,
        batch: *const u8,
        batch_len: usize,
        rows: *mut u64,
        rows_len: usize,
    ) -> Batch;
    fn rate_book_list(
        book: *const u64,
        len: usize,
        day: u64,
        out: *mut u8,
        out_len: usize,
    ) -> Listed;
    fn rate_book_cell(
        country: *const u8,
        country_len: usize,
        cell: *const u8,
        cell_len: usize,
        keys: *mut u64,
        keys_len: usize,
    ) -> CellKeys;
    fn rate_book_cell_entry(
        country: *const u8,
        country_len: usize,
        cell: *const u8,
        cell_len: usize,
        keys: *mut u64,
        keys_len: usize,
    ) -> EntryKeys;
}

pub fn words(entries: u64) -> u64 {
    // SAFETY: the call takes and gives a number, and is defined for every number.
    unsafe { rate_book_words(entries) }
}

pub fn fresh(book: &mut [u64], notice_period: u64) -> u64 {
    // SAFETY: pointer and length are of one slice, borrowed for writing until the call returns.
    unsafe { rate_book_fresh(book.as_mut_ptr(), book.len(), notice_period) }
}

pub fn apply(old: &[u64], notice: &[u8], new: &mut [u64]) -> Applied {
    // SAFETY: each pointer and length are of one slice, borrowed until the call returns. Only `new` is written; it is
    // borrowed for writing, so it overlaps neither `old` nor `notice`.
    unsafe {
        rate_book_apply(
            old.as_ptr(),
            old.len(),
            notice.as_ptr(),
            notice.len(),
            new.as_mut_ptr(),
            new.len(),
        )
    }
}

pub fn lookup(book: &[u64], number: &[u8], day: u64) -> Offer {
    // SAFETY: each pointer and length are of one slice, borrowed until the call returns; neither is written.
    unsafe {
        rate_book_lookup(
            book.as_ptr(),
            book.len(),
            number.as_ptr(),
            number.len(),
            day,
        )
    }
}

pub fn rate_call(book: &[u64], number: &[u8], moment: u64, duration: u64) -> Call {
    // SAFETY: each pointer and length are of one slice, borrowed until the call returns; neither is written.
    unsafe {
        rate_book_rate_call(
            book.as_ptr(),
            book.len(),
            number.as_ptr(),
            number.len(),
            moment,
            duration,
        )
    }
}

pub fn rate_batch(book: &[u64], batch: &[u8], rows: &mut [u64]) -> Batch {
    // SAFETY: each pointer and length are of one slice, borrowed until the call returns. Only `rows` is written; it is
    // borrowed for writing, so it overlaps neither `book` nor `batch`.
    unsafe {
        rate_book_rate_batch(
            book.as_ptr(),
            book.len(),
            batch.as_ptr(),
            batch.len(),
            rows.as_mut_ptr(),
            rows.len(),
        )
    }
}

pub fn list(book: &[u64], day: u64, out: &mut [u8]) -> Listed {
    // SAFETY: each pointer and length are of one slice, borrowed until the call returns. Only `out` is written; it is
    // borrowed for writing, so it does not overlap `book`.
    unsafe { rate_book_list(book.as_ptr(), book.len(), day, out.as_mut_ptr(), out.len()) }
}

pub fn cell(country: &[u8], cell: &[u8], keys: &mut [u64]) -> CellKeys {
    // SAFETY: each pointer and length are of one slice, borrowed until the call returns. Only `keys` is written; it is
    // borrowed for writing, so it overlaps neither `country` nor `cell`.
    unsafe {
        rate_book_cell(
            country.as_ptr(),
            country.len(),
            cell.as_ptr(),
            cell.len(),
            keys.as_mut_ptr(),
            keys.len(),
        )
    }
}

pub fn cell_entry(country: &[u8], cell: &[u8], keys: &mut [u64]) -> EntryKeys {
    // SAFETY: as for `cell`.
    unsafe {
        rate_book_cell_entry(
            country.as_ptr(),
            country.len(),
            cell.as_ptr(),
            cell.len(),
            keys.as_mut_ptr(),
            keys.len(),
        )
    }
}
