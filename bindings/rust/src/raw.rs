//! The calls themselves; `include/auction.h` says what each does.

extern "C" {
    pub fn auction_read(book: *const u8, book_len: usize) -> u32;
    pub fn auction_price(book: *const u8, book_len: usize, set: u32, hour: u32, part: u32) -> u32;
    pub fn auction_clear(
        book: *const u8,
        book_len: usize,
        result: *mut u8,
        result_len: usize,
    ) -> u32;
    pub fn auction_sheet(book: *const u8, book_len: usize, out: *mut u8, out_len: usize) -> u32;
    pub fn auction_families(book: *const u8, book_len: usize, out: *mut u8, out_len: usize) -> u32;
    pub fn auction_cash(book: *const u8, book_len: usize, out: *mut u8, out_len: usize) -> u32;
    pub fn auction_range(list: *const u8, list_len: usize, part: u32) -> u32;
}
