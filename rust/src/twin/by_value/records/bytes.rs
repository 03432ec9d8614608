// Written by `twin_source` from crates/records/src/bytes.rt.
// The numbers in a book's bytes: unsigned, high byte first. A missing byte reads as 0.
// Assumes nothing.

// Byte i, for any i. (A u32 becomes a usize by `as`: the library has no From for it.)
fn byte(book: &[u8], i: usize) -> u8
{
    if i < book.len() { book[i] } else { 0 }
}

pub fn byte_at(book: &[u8], at: u32) -> u8
{
    byte(book, at as usize)
}

// The N bytes from at on: one test where all are there, a test for each byte where one is missing.
fn bytes_at<const N: usize>(book: &[u8], at: u32) -> [u8; N]
{
    let i = at as usize;
    let mut bytes = [0; N];
    if i + N <= book.len() {
        bytes.copy_from_slice(&book[i..i + N]);
        return bytes;
    }
    for (k, b) in bytes.iter_mut().enumerate() {
        *b = byte(book, i + k);
    }
    bytes
}

// The number in the 2, 3 or 4 bytes from at on.
pub fn u16_at(book: &[u8], at: u32) -> u16
{
    u16::from_be_bytes(bytes_at(book, at))
}

pub fn u24_at(book: &[u8], at: u32) -> u32
{
    let [high, middle, low] = bytes_at::<3>(book, at);
    u32::from_be_bytes([0, high, middle, low])
}

pub fn u32_at(book: &[u8], at: u32) -> u32
{
    u32::from_be_bytes(bytes_at(book, at))
}

// Whether the count bytes from at on are not all 0.
pub fn is_nonzero(book: &[u8], at: u32, count: u16) -> bool
{
    let i = at as usize;
    (i..i + usize::from(count)).any(|k| byte(book, k) != 0)
}
