//! The proved calls on lent memory, as the archive has them. Nothing that is lent is trusted: each call checks it, so any
//! slice may be lent. The other modules put types around these; who keeps a book in memory of their own may call them.

mod foreign {
    use super::{BatchEnded, NameEntered, NamePlace, TextRead};

    extern "C" {
        /// The words of a book.
        pub fn cf_book_words() -> u64;

        /// Makes an empty book; `book` points to `words` words that may be written.
        pub fn cf_book_empty(book: *mut u64, words: usize) -> u64;

        /// Checks memory; `book` points to `words` words.
        pub fn cf_book_passes(book: *const u64, words: usize) -> u64;

        /// Runs a batch; `book` points to `words` words and `out` to `room` cells that may be written, `cells` to `count`
        /// cells.
        pub fn cf_batch(
            book: *mut u64,
            words: usize,
            cells: *const u16,
            count: usize,
            out: *mut u16,
            room: usize,
        ) -> BatchEnded;

        /// Enters a name; `table` points to `bytes` bytes that may be written, `name` to `length` bytes.
        pub fn cf_name_enter(
            table: *mut u8,
            bytes: usize,
            name: *const u8,
            length: usize,
        ) -> NameEntered;

        /// Finds the name with a number; `table` points to `bytes` bytes.
        pub fn cf_name_of(table: *const u8, bytes: usize, number: u64) -> NamePlace;

        /// Reads a typed term; `table` points to `bytes` bytes that may be written, `text` to `length` bytes.
        pub fn cf_text_read(
            table: *mut u8,
            bytes: usize,
            text: *const u8,
            length: usize,
        ) -> TextRead;
    }
}

/// What a batch answers.
#[repr(C)]
#[derive(Clone, Copy, PartialEq, Eq, Debug)]
pub struct BatchEnded {
    /// 0, or the refusal 1, 2, 3, 4, 5 or 10 at which it stopped.
    pub stop: u64,
    /// Command cells used; the command at which it stopped isn't counted.
    pub used: u64,
    /// Output cells written.
    pub written: u64,
}

/// What entering a name answers.
#[repr(C)]
#[derive(Clone, Copy, PartialEq, Eq, Debug)]
pub struct NameEntered {
    /// 0, or the refusal 1, 11 or 12.
    pub refusal: u64,
    /// The number of the name's slot; 0 when refused.
    pub number: u64,
}

/// Where a name stands in its table.
#[repr(C)]
#[derive(Clone, Copy, PartialEq, Eq, Debug)]
pub struct NamePlace {
    /// 0, or the refusal 1 or 13.
    pub refusal: u64,
    /// The place of the name's first byte in the table; 0 when refused.
    pub start: u64,
    /// The count of the name's bytes; 0 when refused.
    pub length: u64,
}

/// What reading a typed term answers.
#[repr(C)]
#[derive(Clone, Copy, PartialEq, Eq, Debug)]
pub struct TextRead {
    /// 0, or the refusal 1, 4, 5, 11, 12, 20 or 21.
    pub refusal: u64,
    /// The place after the term's last byte; with 20 the place where no term can go on; 0 with any other refusal.
    pub place: u64,
    /// The term's cells; 0 when refused.
    pub size: u64,
    /// The cells, and zeros behind them; all zeros when refused.
    pub cells: [u16; 32],
}

/// The words of a book.
pub fn book_words() -> usize {
    // SAFETY: the call takes nothing.
    unsafe { foreign::cf_book_words() as usize }
}

/// Makes an empty book of memory with any contents: 0, or 1 on a wrong length.
pub fn book_empty(book: &mut [u64]) -> u64 {
    // SAFETY: pointer and count are those of a live slice that is lent alone; the call doesn't keep it.
    unsafe { foreign::cf_book_empty(book.as_mut_ptr(), book.len()) }
}

/// The check: 0 where the memory is a book, else 1.
pub fn book_passes(book: &[u64]) -> u64 {
    // SAFETY: pointer and count are those of a live slice, which the call only reads and doesn't keep.
    unsafe { foreign::cf_book_passes(book.as_ptr(), book.len()) }
}

/// Runs the commands on the book and writes their records to the front of `out`.
pub fn batch(book: &mut [u64], cells: &[u16], out: &mut [u16]) -> BatchEnded {
    let (words, cell, first) = (book.as_mut_ptr(), cells.as_ptr(), out.as_mut_ptr());
    // SAFETY: pointers and counts are those of live slices of which none overlaps another, since two are `&mut`; the call
    // keeps none.
    unsafe { foreign::cf_batch(words, book.len(), cell, cells.len(), first, out.len()) }
}

/// Enters a name into a table.
pub fn name_enter(table: &mut [u8], name: &[u8]) -> NameEntered {
    // SAFETY: pointers and counts are those of live slices that don't overlap, since one is `&mut`; the call keeps none.
    unsafe { foreign::cf_name_enter(table.as_mut_ptr(), table.len(), name.as_ptr(), name.len()) }
}

/// Finds the name with a number.
pub fn name_of(table: &[u8], number: u64) -> NamePlace {
    // SAFETY: pointer and count are those of a live slice, which the call only reads and doesn't keep.
    unsafe { foreign::cf_name_of(table.as_ptr(), table.len(), number) }
}

/// Reads one typed term and enters its names into a table.
pub fn text_read(table: &mut [u8], text: &[u8]) -> TextRead {
    // SAFETY: pointers and counts are those of live slices that don't overlap, since one is `&mut`; the call keeps none.
    unsafe { foreign::cf_text_read(table.as_mut_ptr(), table.len(), text.as_ptr(), text.len()) }
}
